"""Records of srpcalls, as docs/SRPCALLS.md lays them out."""
from dataclasses import dataclass

from srp import arguments

START, RECEIVE, ADVANCE, WRITE, REPORT, STORE, SUM, RECEIVE_MMRP, WHY = 0x0, 0x1, 0x2, 0x3, 0x4, 0x5, 0x6, 0x7, 0x8

# Octets behind the first one; None is a 16-bit length and so many octets. The second digit of those in PORTED is a port.
PORTED = {RECEIVE: None, WRITE: 4, REPORT: 2, RECEIVE_MMRP: None, WHY: 10}
PLAIN = {0x00: None, 0x20: 4, 0x50: 3, 0x51: 2, 0x60: 0, 0x61: 0}
TABLE_SUM, TABLE_OCTETS = b"\x60", b"\x61"


@dataclass(frozen=True, slots=True)
class Record:
    """A record: all its octets."""
    octets: bytes

    @property
    def kind(self):
        return self.octets[0] >> 4

    @property
    def port(self):
        return self.octets[0] & 0xF

    @property
    def is_answered(self):
        """Whether srpcalls prints a line for it."""
        return self.kind != STORE

    @property
    def is_frame(self):
        """Whether it is a frame that arrives on a port."""
        return self.kind in (RECEIVE, RECEIVE_MMRP)

    @property
    def body(self):
        """The settings or PDU of a start, receive or receive_mmrp."""
        return self.octets[3:]

    @property
    def time(self):
        """The time of an advance."""
        return int.from_bytes(self.octets[1:5], "big")


def is_of_a_sheet(first):
    """Whether srpsheet knows records with this first octet."""
    return first >> 4 == RECEIVE or first == 0x20


def is_of_calls(first):
    """Whether srpcalls knows records with this first octet."""
    return first >> 4 in PORTED or first in PLAIN


def record_length(octets, at):
    """The octets of the record that begins at a place."""
    first = octets[at]
    size = PORTED[first >> 4] if first >> 4 in PORTED else PLAIN[first]
    return 1 + (2 + int.from_bytes(octets[at + 1:at + 3], "big") if size is None else size)


def split(octets, is_known):
    """The records of octets, and the rest behind the last whole one that is known, which stops a program."""
    records, at = [], 0
    while at < len(octets) and is_known(octets[at]):
        end = at + record_length(octets, at)
        if end > len(octets):
            break
        records.append(Record(octets[at:end]))
        at = end
    return records, octets[at:]


def counted(first, name, octets):
    """A record of a 16-bit length and so many octets."""
    octets = arguments.octets(name, octets)
    return Record(bytes([first]) + len(octets).to_bytes(2, "big") + octets)


def numbered(first, *fields):
    """A record of numbers: each with its name and its octets."""
    return Record(bytes([first]) + b"".join(arguments.number(name, value, (1 << 8 * size) - 1).to_bytes(size, "big")
                                            for name, value, size in fields))


def ported(kind, port):
    return kind << 4 | arguments.number("port", port, 0xF)


def start(settings):
    return counted(START, "settings", settings)


def frame(kind, port, pdu):
    """A frame that arrives on a port, of the kind RECEIVE or RECEIVE_MMRP."""
    return counted(ported(kind, port), "pdu", pdu)


def receive(port, pdu):
    return frame(RECEIVE, port, pdu)


def receive_mmrp(port, pdu):
    return frame(RECEIVE_MMRP, port, pdu)


def advance(time):
    return numbered(0x20, ("time", time, 4))


def store(place, octet):
    return numbered(0x50, ("place", place, 2), ("octet", octet, 1))


def lend(length):
    return numbered(0x51, ("length", length, 2))


def write(port, place=0, buffer=1500):
    return numbered(ported(WRITE, port), ("place", place, 2), ("buffer", buffer, 2))


def report(port, place=0):
    return numbered(ported(REPORT, port), ("place", place, 2))


def why(port, stream, buffer=1008):
    return numbered(ported(WHY, port), ("stream", stream, 8), ("buffer", buffer, 2))
