"""Numbers in words. Columns, Listeners and entries are the sheet's own words; causes are those of Table 35-6."""

COLUMNS = ("none", "advertise", "failed")
LISTENERS = ("none", "asking", "ready", "readyfailed")
ENTRIES = ("none", "filter", "forward")
CLASSES = ("A", "B")

# Applicants (IEEE 802.1Q, Table 10-3) by their octet, and what each has still to say.
APPLICANTS = ("none", "VP", "VN", "AN", "AA", "QA", "LA")
STILL_TO_SAY = {"VP": "Join, twice", "VN": "New, twice", "AN": "New, once more", "AA": "Join, once more",
                "QA": "nothing", "LA": "Lv, once: it is withdrawn"}
LEAVING = APPLICANTS.index("LA")
# Hundredths of a second from one LeaveAll that is due to the next (LeaveAllTime).
LEAVE_ALL_TIME = 1000

# Class IDs of Domain values (Table 35-7).
CLASS_IDS = {"A": 6, "B": 5}

CAUSES = {
    1: "insufficient bandwidth",
    2: "insufficient Bridge resources",
    3: "insufficient bandwidth for the traffic class",
    4: "StreamID in use by another Talker",
    5: "destination address already in use",
    6: "preempted by higher rank",
    7: "reported latency has changed",
    8: "egress port is not AVB capable",
    9: "use a different destination address",
    10: "out of MSRP resources",
    11: "out of MMRP resources",
    12: "cannot store the destination address",
    13: "requested priority is not an SR class priority",
    14: "MaxFrameSize is too large for the media",
    15: "limit of inbound ports has been reached",
    16: "changes in FirstValue for a registered StreamID",
    17: "VLAN is blocked on this egress port",
    18: "VLAN tagging is disabled on this egress port",
    19: "SR class priority mismatch",
}

REFUSALS = {
    1: "no such port",
    2: "the PDU has 0 octets or more than 1,500",
    3: "a field runs past the PDU or its list, or a list's EndMark is missing",
    4: "unknown AttributeType",
    5: "AttributeLength is not that of the type",
    6: "unknown event",
    7: "a value runs past its field",
    8: "no room for another stream",
    9: "the time is below the clock",
    10: "the output buffer is too short",
    11: "the settings are not as docs/TABLE.md lays them out",
    12: "the table has the wrong length or breaks a form rule",
    13: "no such place",
    14: "no room for another address",
    15: "no such stream",
}

# What decides a stream's column on a port: the steps that why names, in the order in which they are tested.
REASONS = {
    "a": "there is no Talker, or it is on this port",
    "b": "the port doesn't support the class",
    "n": "pruning is on, and the port doesn't hold the stream's destination",
    "c": "the Talker was failed by a bridge before this one",
    "d": CAUSES[16],
    "k": CAUSES[7],
    "e": CAUSES[4],
    "f": CAUSES[13],
    "j": CAUSES[8],
    "l": CAUSES[5],
    "m": CAUSES[15],
    "g": CAUSES[14],
    "h": CAUSES[1],
    "i": "admitted",
}


def word(words, number):
    """The word of a number; the number itself where there is none."""
    return words[number] if number < len(words) else str(number)


def applicant(number):
    """An Applicant, and what it has still to say."""
    name = word(APPLICANTS, number)
    return f"{name} (to say: {STILL_TO_SAY[name]})" if name in STILL_TO_SAY else name


def cause(code):
    """A failure code in words; nothing for 0."""
    return CAUSES.get(code, "not in Table 35-6") if code else ""


def reason(step):
    """A step in words; nothing where none decides."""
    return REASONS.get(step, "")


def edge(name):
    """What a port is where a class's domain ends."""
    return f"at the edge of class {name}'s domain"


def refusal(number):
    """A refusal in words."""
    return REFUSALS.get(number, "unknown number")


def counted(count, what):
    """How many there are of something."""
    return f"{count} {what}{'' if count == 1 else 's'}"


def first_of(words, most=8):
    """The first of some words, and how many more there are."""
    more = f" and {len(words) - most} more" if len(words) > most else ""
    return "; ".join(words[:most]) + more


def stream_id(number):
    return f"{number:016x}"


def address(number):
    """A MAC address as Wireshark shows it."""
    return ":".join(f"{octet:02x}" for octet in number.to_bytes(6, "big"))


def seconds(hundredths):
    """A time of the clock."""
    return f"{hundredths // 100}.{hundredths % 100:02d} s"


def rate(bits_per_second):
    """Bits per second, in the largest unit that shows all of them shortly."""
    for unit, size in (("Gbit/s", 10**9), ("Mbit/s", 10**6), ("kbit/s", 10**3)):
        if bits_per_second >= size:
            return f"{bits_per_second / size:.6g} {unit}"
    return f"{bits_per_second} bit/s"
