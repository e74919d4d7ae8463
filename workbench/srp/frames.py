"""Captures that are written: the frames of an input, or what its ports write."""
import struct

from srp import files, layout, protocols, records
from srp.bridge import Bridge
from srp.faults import Fault
from srp.needs import need
from srp.reading import ADDRESS, OWN_PORTS
from srp.refusals import Refusal
from srp.words import counted, seconds

SHORTEST_FRAME = 60
LONGEST = 1 << 18
ETHERNET = 1
# The calls that set the clock.
CLOCKED = (records.START, records.ADVANCE)


def sources_of(ports):
    """The source address of each port's frames."""
    given = {port: source for source, port in ports.items() if ADDRESS.fullmatch(source)}
    own = {port: source for source, port in OWN_PORTS.items()}
    return {port: bytes.fromhex(source.replace(":", "")) for port, source in (own | given).items()}


def as_frame(record, sources):
    """The Ethernet frame of a record. It is padded to Ethernet's shortest only behind an EndMark, where that changes no answer."""
    protocol, pdu = protocols.BY_KIND[record.kind], record.body
    frame = protocol.group + sources[record.port] + protocol.ethertype.to_bytes(2, "big") + pdu
    return frame if protocol.end_of_pdu(pdu) is None else frame.ljust(SHORTEST_FRAME, b"\0")


def clock_behind(record, answer, clock):
    """The clock after a call."""
    if record.kind in CLOCKED and answer.accepted:
        return record.time if record.kind == records.ADVANCE else 0
    return clock


def received(given, tell, _refused=None):
    """The frames of an input, each with its time, as records. The clock depends on the other calls alone, where no octet is stored
    in the table; so frames are not handed over, and none is refused."""
    given.check_end()
    is_stored = any(record.kind == records.STORE for record in given.records)
    made = [record for record in given.records if is_stored or record.kind in CLOCKED]
    frames, clock = [], 0
    with Bridge() as bridge:
        found = bridge.calls(made)
        for record in given.records:
            tell(1)
            if record.is_frame:
                frames.append((clock, record))
            if record.is_answered and (is_stored or record.kind in CLOCKED):
                clock = clock_behind(record, next(found), clock)
    return frames


def up_to_advances(given):
    """The records of an input in parts that end with an advance; the last may end with another."""
    part = []
    for record in given.records:
        part.append(record)
        if record.kind == records.ADVANCE:
            yield part
            part = []
    if part:
        yield part


def ports_of(start):
    """The ports of a start; where it is refused, writes on ports that the bridge hasn't are refused too."""
    return min(layout.read(layout.Settings, start.body.ljust(layout.length(layout.Settings), b"\0")).ports, layout.PORTS)


def has_writes(given):
    """Whether an input makes writes of its own."""
    return any(record.kind == records.WRITE for record in given.records)


def passes(bridge, ports):
    """What each port says, as frames: from place 0 by the next places to a PDU that says nothing. All that go on are written in one
    go."""
    asked, pdus = {port: 0 for port in range(1, ports + 1)}, {port: [] for port in range(1, ports + 1)}
    while asked:
        found = list(bridge.calls(records.write(port, place) for port, place in asked.items()))
        said = {port: answer for port, answer in zip(asked, found) if answer.has_said}
        for port, answer in said.items():
            pdus[port].append(records.receive(port, answer.pdu))
        asked = {port: answer.next for port, answer in said.items()}
    return [frame for frames in pdus.values() for frame in frames]


def refusals_of(given, at, part, found):
    """The refused calls of a part of an input that begins at a place."""
    places = [at + place for place, record in enumerate(part) if record.is_answered]
    return [Refusal(given.origin(place), given.records[place].is_frame, answer.number) for place, answer in zip(places, found)
            if not getattr(answer, "accepted", True)]


def clocked(part, found, clock):
    """The records of a part that are answered, with the clock behind each and their answers."""
    for record, answer in zip((record for record in part if record.is_answered), found):
        clock = clock_behind(record, answer, clock)
        yield clock, record, answer


def own_frames(clock, record, answer):
    """What a record of the input has written."""
    if record.kind == records.WRITE and answer.has_said:
        yield clock, records.receive(record.port, answer.pdu)


def written(given, tell, refused):
    """What each port writes, with its time, as records: by the writes of the input, or where it has none in a pass of each port
    after each accepted advance, as a product makes it. A bridge writes no MMRP frames. Refused is a list that gets the refused
    calls."""
    given.check_end()
    frames, clock, ports, at, is_passed = [], 0, 0, 0, not has_writes(given)
    with Bridge() as bridge:
        for part in up_to_advances(given):
            ports = max([ports, *(ports_of(record) for record in part if record.kind == records.START)])
            found = list(bridge.calls(part))
            for clock, record, answer in clocked(part, found, clock):
                frames += own_frames(clock, record, answer)
            refused += refusals_of(given, at, part, found)
            at += len(part)
            tell(len(part))
            if is_passed and part[-1].kind == records.ADVANCE and found[-1].accepted:
                frames += [(clock, frame) for frame in passes(bridge, ports)]
    if not frames:
        raise Fault(f"{given.name}: no port has something to say, by the input's writes or after an accepted advance")
    return frames


def leave_all_notes(frames):
    """What is said where ports have sent LeaveAll in passes that the input doesn't know of. It stands in the first vector."""
    sent = [(clock, record.port) for clock, record in frames if record.body[5] >> 5 == 1]
    if sent:
        first = f"port {sent[0][1]} at {seconds(sent[0][0])}"
        yield (f"ports send LeaveAll, {counted(len(sent), 'frame')}, the first by {first}: what the input doesn't join again within"
               " the leave time ends")


def write_pcap(file, frames):
    """Writes frames, each with its time in hundredths and its port."""
    header = need("dpkt.pcap").LEFileHdr(snaplen=LONGEST, linktype=ETHERNET)
    file.write(bytes(header))
    for time, _, octets in frames:
        file.write(struct.pack("<IIII", time // 100, time % 100 * 10**4, len(octets), len(octets)) + octets)


def write_pcapng(file, frames):
    """The same, with an interface for each port."""
    pcapng = need("dpkt.pcapng")
    ports = sorted({port for _, port, _ in frames})
    file.write(bytes(pcapng.SectionHeaderBlockLE()))
    for port in ports:
        name = pcapng.PcapngOptionLE(code=pcapng.PCAPNG_OPT_IF_NAME, data=b"port%d" % port)
        file.write(bytes(pcapng.InterfaceDescriptionBlockLE(snaplen=LONGEST, opts=[name, pcapng.PcapngOptionLE()])))
    for time, port, octets in frames:
        padded = octets.ljust(-(-len(octets) // 4) * 4, b"\0")
        size, stamp = 32 + len(padded), time * 10**4
        file.write(struct.pack("<IIIIIII", 6, size, ports.index(port), stamp >> 32, stamp & 0xFFFFFFFF, len(octets), len(octets))
                   + padded + struct.pack("<I", size))


def write(path, frames, ports):
    """Writes a capture: pcapng where the name ends so, otherwise pcap."""
    sources = sources_of(ports)
    octets = [(time, record.port, as_frame(record, sources)) for time, record in frames]
    make = write_pcapng if path.endswith(".pcapng") else write_pcap
    with files.written(path) as file:
        make(file, octets)
