"""The lines of srpcalls as objects."""
from dataclasses import dataclass

from srp.faults import Fault
from srp.words import reason, refusal, stream_id


# The octets of a PDU without a Message.
NOTHING_SAID = 3


@dataclass(frozen=True)
class Answer:
    """What a call gives back: 0 where it is accepted."""
    call: str
    number: int

    @property
    def accepted(self):
        return self.number == 0

    @property
    def why(self):
        """A refusal in words; nothing where the call is accepted."""
        return "" if self.accepted else refusal(self.number)


@dataclass(frozen=True)
class Written(Answer):
    """What write gives: the PDU, and the place where the next one begins."""
    length: int
    next: int
    kept: bool
    pdu: bytes

    @property
    def has_said(self):
        """Whether the port had something to say: another PDU than 00 00 00, which ends its pass."""
        return self.accepted and self.length > NOTHING_SAID


@dataclass(frozen=True)
class Report(Answer):
    """What report gives: the streams held, the port's totals and limits, and the stream at the place."""
    count: int
    total_a: int
    limit_a: int
    total_b: int
    limit_b: int
    stream: str
    column: str
    code: int
    listener: str
    entry: str


@dataclass(frozen=True)
class Listed:
    """A more important stream that reserves, and its demand in bits per second."""
    stream: str
    demand: int


@dataclass(frozen=True)
class Reason(Answer):
    """What why gives: the letter of the step that decides; for step h the more important streams that reserve, the limit in force
    and how much is missing, in bits per second."""
    step: str
    count: int
    limit: int
    shortfall: int
    kept: bool
    listed: tuple[Listed, ...]

    @property
    def words(self):
        """The step in words; nothing where the call is refused."""
        return reason(self.step)


@dataclass(frozen=True)
class Sum:
    """The Adler-32 of the table's octets, in hex."""
    sum: str


@dataclass(frozen=True)
class Octets:
    """The table's octets."""
    octets: bytes


def listed(digits):
    """The streams of a list in hex: 8 octets StreamID, 8 demand."""
    numbers = [int(digits[at:at + 16], 16) for at in range(0, len(digits), 16)]
    return tuple(Listed(stream_id(stream), demand) for stream, demand in zip(numbers[::2], numbers[1::2]))


def read_line(line):
    """The answer that a line of srpcalls is."""
    name, *words = line.split() or [""]
    try:
        if name in ("start", "receive", "mmrp", "advance"):
            return Answer(name, int(words[0]))
        if name == "write":
            number, long, following = (int(word) for word in words[:3])
            return Written(name, number, long, following, words[3] == "kept", bytes.fromhex("".join(words[4:])))
        if name == "report":
            return Report(name, *(int(word) for word in words[:6]), words[6], words[7], int(words[8]), *words[9:])
        if name == "why":
            count, limit, shortfall = (int(word) for word in words[2:5])
            return Reason(name, int(words[0]), words[1], count, limit, shortfall, words[5] == "kept", listed("".join(words[6:])))
        if name == "table":
            return Sum(words[0])
        if name == "octets":
            return Octets(bytes.fromhex("".join(words)))
    except (IndexError, TypeError, ValueError):
        raise Fault(f"srpcalls printed a line that is none of its own: {line[:80]}") from None
    raise Fault("a record is cut or unknown: the bridge stopped" if name == "stop" else f"srpcalls printed: {line[:80]}")
