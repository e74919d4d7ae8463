"""A frame's Messages in words of the text format (docs/TEXT.md). Words are taken only where they give the same octets again."""
from dataclasses import dataclass

from srp import protocols, texts
from srp.words import LISTENERS, address, stream_id

EVENTS = ("new", "joinin", "in", "join", "mt", "leave")
# What the four-packed events say of a Listener; 0 is Ignore.
KINDS = ("ignore", *LISTENERS[1:])
VALUES = (1 << 13) - 1

# What a line leaves out is as in the worked example. A destination is this plus the Unique ID.
DESTINATION = 0x91E0F0000000
DEFAULTS = {"vlan": 2, "size": 224, "frames": 1, "priority": 3, "rank": 1, "latency": 0}
TALKER_LENGTH = 25


@dataclass(frozen=True)
class Vector:
    """The one vector of a Message: its LeaveAllEvent, how many values it has, the first, and the event and kind that all have."""
    leave_all: int
    values: int
    first: bytes
    event: int
    kind: int | None

    def octets(self):
        """As the text tool lays it out: spare positions of packed events are 0."""
        def packed(base, size, part):
            every = [part] * self.values + [0] * (-self.values % size)
            return bytes(sum(one * base ** (size - 1 - place) for place, one in enumerate(every[at:at + size]))
                         for at in range(0, len(every), size))

        kinds = packed(4, 4, self.kind) if self.kind is not None else b""
        return (self.leave_all << 13 | self.values).to_bytes(2, "big") + self.first + packed(6, 3, self.event) + kinds


def number(octets, at, size):
    return int.from_bytes(octets[at:at + size], "big")


def talker_words(first):
    """A Talker's FirstValue: what is as in the worked example is left out; none where a reserved bit is set."""
    if first[20] & 0xF:
        return None
    stream, destination = number(first, 0, 8), number(first, 8, 6)
    said = {"vlan": number(first, 14, 2), "size": number(first, 16, 2), "frames": number(first, 18, 2),
            "priority": first[20] >> 5, "rank": first[20] >> 4 & 1, "latency": number(first, 21, 4)}
    words = ["talker", stream_id(stream)]
    words += [] if destination == DESTINATION + (stream & 0xFFFF) else ["to", address(destination)]
    words += [f"{name} {value}" for name, value in said.items() if value != DEFAULTS[name]]
    if len(first) > TALKER_LENGTH:
        words += ["failed", stream_id(number(first, 25, 8)), str(first[33])]
    return words


def listener_words(first):
    return ["listener", stream_id(number(first, 0, 8))]


def domain_words(first):
    return ["domain", str(first[0]), str(first[1]), str(number(first, 2, 2))]


def mac_words(first):
    return ["mac", address(number(first, 0, 6))]


def service_words(first):
    return ["service", str(first[0])]


# By protocol and AttributeType: the octets of a FirstValue, its words, and the word of its LeaveAll.
MESSAGES = {
    (protocols.MSRP, 1): (25, talker_words, "advertise"),
    (protocols.MSRP, 2): (34, talker_words, "failed"),
    (protocols.MSRP, 3): (8, listener_words, "listener"),
    (protocols.MSRP, 4): (4, domain_words, "domain"),
    (protocols.MMRP, 1): (1, service_words, "service"),
    (protocols.MMRP, 2): (6, mac_words, "mac"),
}
LISTENER = (protocols.MSRP, 3)


def vector_at(pdu, at, size, has_kinds):
    """The vector at a place, as far as its first event and kind tell."""
    header = number(pdu, at, 2)
    leave_all, values = header >> 13, header & VALUES
    events = at + 2 + size
    kinds = events + -(-values // 3)
    event = pdu[events] // 36 if values and events < len(pdu) else 0
    kind = (pdu[kinds] >> 6 if values and kinds < len(pdu) else 0) if has_kinds else None
    return Vector(leave_all, values, pdu[at + 2:events], event, kind)


def vector_words(key, vector):
    """A Message of one vector in words; none where it has none."""
    _, first_words, leave_all = MESSAGES[key]
    if vector.leave_all:
        return ["leaveall", leave_all] if vector.values == 0 and not any(vector.first) else None
    if not vector.values or vector.event >= len(EVENTS):
        return None
    words = first_words(vector.first)
    if not words:
        return None
    words += [KINDS[vector.kind]] if key == LISTENER else []
    words += [f"values {vector.values}"] if vector.values > 1 else []
    return words + ([EVENTS[vector.event]] if EVENTS[vector.event] != "join" else [])


def message_at(protocol, pdu, at):
    """The octets of the Message at a place, as the text tool lays out one of its first vector, and its words; none where it has
    none."""
    key = (protocol, pdu[at])
    if key not in MESSAGES:
        return None
    size = MESSAGES[key][0]
    header = 4 if protocol is protocols.MSRP else 2
    vector = vector_at(pdu, at + header, size, key == LISTENER)
    words = vector_words(key, vector) if len(vector.first) == size else None
    if not words:
        return None
    attributes = vector.octets() + protocols.END_MARK
    length = len(attributes).to_bytes(2, "big") if protocol is protocols.MSRP else b""
    return bytes([pdu[at], size]) + length + attributes, " ".join(words)


def words_of(protocol, pdu):
    """A PDU in words; none where the text format has none for it."""
    if pdu[:1] != b"\0":
        return None
    at, messages = 1, []
    while at < len(pdu) and pdu[at:] != protocols.END_MARK:
        message = message_at(protocol, pdu, at)
        if not message or pdu[at:at + len(message[0])] != message[0]:
            return None
        at += len(message[0])
        messages.append(message[1])
    return " and ".join(messages) if messages and at < len(pdu) else None


def line_of(record):
    """The line of a record: a frame's Messages in words where that can be."""
    words = words_of(protocols.BY_KIND[record.kind], record.body) if record.is_frame else None
    return f"{texts.FRAMES[record.kind]} {record.port} {words}" if words else texts.record_line(record)
