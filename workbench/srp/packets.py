"""Packets of capture files, pcap and pcapng. Every fault names its packet, counted from 1 as Wireshark counts them."""
import struct
from dataclasses import dataclass, field

from srp.faults import Fault
from srp.needs import need

PCAPNG = bytes.fromhex("0a0d0d0a")
PCAP = tuple(bytes.fromhex(magic) for magic in ("a1b2c3d4", "a1b23c4d", "a1b2cd34", "d4c3b2a1", "4d3cb2a1", "34cdb2a1"))


@dataclass(frozen=True, slots=True)
class Packet:
    """A packet: its time in hundredths of a second, its interface, what was captured of it, and how long it was."""
    number: int
    time: int
    interface: str
    link: int
    octets: bytes
    length: int


@dataclass(frozen=True)
class Interface:
    """An interface of a pcapng section: units of time in a second, and the second they are counted from."""
    name: str
    link: int
    units: int
    offset: int


@dataclass
class Section:
    """What is known in a pcapng section."""
    order: str = "<"
    interfaces: list = field(default_factory=list)


class Cut(Exception):
    """The end of the file cuts what follows the packets before it."""


def is_capture(octets):
    return octets[:4] == PCAPNG or octets[:4] in PCAP


def packets(octets):
    """The packets of a capture that are there whole, and the number of the one that the end of the file cuts; none where it cuts
    none."""
    found = []
    try:
        for packet in of_pcapng(octets) if octets[:4] == PCAPNG else of_pcap(octets):
            found.append(packet)
    except Cut:
        return found, len(found) + 1
    return found, None


def of_pcap(octets):
    pcap = need("dpkt.pcap")
    header = pcap.MAGIC_TO_PKT_HDR[int.from_bytes(octets[:4], "big")]
    is_big = octets[:1] == b"\xa1"
    file_header = pcap.FileHdr if is_big else pcap.LEFileHdr
    size, at, number = header.__hdr_len__, file_header.__hdr_len__, 0
    if len(octets) < at:
        raise Fault("the capture is cut before packet 1")
    head = file_header(octets[:at])
    fraction = 10**7 if head.magic == pcap.TCPDUMP_MAGIC_NANO else 10**4
    fields = struct.Struct((">" if is_big else "<") + "IIII")
    while at < len(octets):
        number += 1
        if at + size > len(octets):
            raise Cut
        seconds, part, captured, long = fields.unpack_from(octets, at)
        at += size
        if at + captured > len(octets):
            raise Cut
        yield Packet(number, seconds * 100 + part // fraction, "0", head.linktype, octets[at:at + captured], long)
        at += captured


def of_pcapng(octets):
    section, number, at = Section(), 0, 0
    while at < len(octets):
        if octets[at:at + 4] == PCAPNG:
            section = Section("<" if octets[at + 8:at + 9] == b"\x4d" else ">")
        kind, block = block_at(octets, at, section, number + 1)
        at += len(block)
        if kind == INTERFACE:
            section.interfaces.append(interface(block, section, number + 1))
        elif kind in BLOCKS:
            number += 1
            yield packet_of_block(kind, block, section, number)


# The blocks that are looked into, by type; the others are passed over. A packet's block has, behind type and length, these fields:
# interface, the time's upper and lower half, octets captured, and the packet's length. A Simple Packet Block has no time and is
# refused; the old Packet Block has an interface of 16 bits, and 16 that count losses.
INTERFACE, OLD, SIMPLE, ENHANCED = 1, 2, 3, 6
BLOCKS = {OLD: "HxxIIII", SIMPLE: "", ENHANCED: "IIIII"}
BEHIND_FIELDS = 28


def block_at(octets, at, section, number):
    """The type of the block at a place, and its octets."""
    if at + 12 > len(octets):
        raise Cut
    kind, size = struct.unpack_from(section.order + "II", octets, at)
    if size < 12 or size % 4:
        raise Fault(f"packet {number} cannot be found: a block before it has length {size}")
    if at + size > len(octets):
        raise Cut
    block = octets[at:at + size]
    if kind in BLOCKS and struct.unpack_from(section.order + "I", block, size - 4) != (size,):
        raise malformed(number)
    return kind, block


def malformed(number):
    return Fault(f"packet {number} cannot be read: its block, or one before it, is malformed")


def interface(block, section, number):
    """The interface that a block describes; one without a name is called by its number, from 0."""
    dpkt, pcapng = need("dpkt"), need("dpkt.pcapng")
    try:
        description = getattr(pcapng, "InterfaceDescriptionBlock" + ("LE" if section.order == "<" else ""))(block)
    except (dpkt.Error, UnicodeDecodeError):
        raise malformed(number) from None
    options = {option.code: option.data for option in description.opts}
    name = options.get(pcapng.PCAPNG_OPT_IF_NAME, b"").rstrip(b"\0").decode(errors="replace")
    resolution = (options.get(pcapng.PCAPNG_OPT_IF_TSRESOL) or b"\x06")[0]
    units = 2 ** (resolution & 0x7F) if resolution & 0x80 else 10**resolution
    order = "little" if section.order == "<" else "big"
    offset = int.from_bytes(options.get(pcapng.PCAPNG_OPT_IF_TSOFFSET, b""), order, signed=True)
    return Interface(name or str(len(section.interfaces)), description.linktype, units, offset)


def packet_of_block(kind, block, section, number):
    if kind == SIMPLE:
        raise Fault(f"packet {number} has no time (Simple Packet Block)")
    if len(block) < BEHIND_FIELDS + 4:
        raise malformed(number)
    index, high, low, captured, long = struct.unpack_from(section.order + BLOCKS[kind], block, 8)
    if index >= len(section.interfaces) or BEHIND_FIELDS + captured + 4 > len(block):
        raise malformed(number)
    source = section.interfaces[index]
    time = (high << 32 | low) * 100 // source.units + source.offset * 100
    return Packet(number, time, source.name, source.link, block[BEHIND_FIELDS:BEHIND_FIELDS + captured], long)
