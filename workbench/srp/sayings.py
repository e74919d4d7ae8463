"""What a frame says, value by value, in the words of the text format: for comments, where that format has no words for the frame
because vectors are several, events unlike, or a LeaveAll stands beside values."""
from srp.phrases import EVENTS, KINDS, LISTENER, MESSAGES, VALUES, number
from srp.protocols import END_MARK, MMRP, MSRP

# The fields of a FirstValue that rise by 1 from value to value (IEEE 802.1Q, 10.8.2.5 and 35.2.2.8): place and octets.
RISING = {(MSRP, 1): ((0, 8), (8, 6)), (MSRP, 2): ((0, 8), (8, 6)), (MSRP, 3): ((0, 8),), (MSRP, 4): ((0, 1), (1, 1)),
          (MMRP, 1): ((0, 1),), (MMRP, 2): ((0, 6),)}


def value_at(key, first, place):
    """The value at a place of a vector, as a FirstValue."""
    octets = bytearray(first)
    for at, size in RISING[key]:
        octets[at:at + size] = ((number(first, at, size) + place) % (1 << 8 * size)).to_bytes(size, "big")
    return bytes(octets)


def unpacked(octets, base, size, count):
    """So many of the numbers that stand in octets, each of which has `size`."""
    return [octet // base ** (size - 1 - place) % base for octet in octets for place in range(size)][:count]


def value_words(key, value, event, kind):
    """A value in words; none where it says nothing, or nothing that is known."""
    words = MESSAGES[key][1](value)
    if not words or event >= len(EVENTS) or kind == KINDS.index("ignore"):
        return None
    return " ".join([*words, *([] if kind is None else [KINDS[kind]]), EVENTS[event]])


def vector(key, pdu, at):
    """What the vector at a place says, and the place behind it."""
    size, _, leave_all = MESSAGES[key]
    header = number(pdu, at, 2)
    values, events = header & VALUES, at + 2 + size
    kinds = events + -(-values // 3)
    end = kinds + (-(-values // 4) if key == LISTENER else 0)
    of_values = unpacked(pdu[kinds:end], 4, 4, values) if key == LISTENER else [None] * values
    said = [value_words(key, value_at(key, pdu[at + 2:events], place), event, kind)
            for place, (event, kind) in enumerate(zip(unpacked(pdu[events:kinds], 6, 3, values), of_values))]
    return [f"leaveall {leave_all}"] * (header >> 13 == 1) + [words for words in said if words], end


def said_by(protocol, pdu):
    """What a PDU of version 0 says, value by value, as far as its Messages are known and whole."""
    at, said = 1, []
    while pdu[:1] == b"\0" and at + 4 < len(pdu) and (protocol, pdu[at]) in MESSAGES:
        key = (protocol, pdu[at])
        at += 4 if protocol is MSRP else 2
        while at + 2 < len(pdu) and pdu[at:at + 2] != END_MARK:
            words, at = vector(key, pdu, at)
            said += words if at <= len(pdu) else []
        at += 2
    return said
