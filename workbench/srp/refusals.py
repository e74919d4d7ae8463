"""Refused calls, each with where it comes from."""
from dataclasses import dataclass
from itertools import groupby

from srp.words import counted, first_of, refusal


@dataclass(frozen=True)
class Refusal:
    """A call that was refused: where it comes from, whether it handed over a frame, and its number."""
    origin: str
    is_frame: bool
    number: int

    @property
    def words(self):
        return f"{self.origin}: refused with {self.number}, {refusal(self.number)}"


def summed_up(refusals):
    """A line for each number: how many were refused with it, why, and which."""
    def key(one):
        return one.number, not one.is_frame

    for (number, is_call), group in groupby(sorted(refusals, key=key), key=key):
        origins = [one.origin for one in group]
        count = counted(len(origins), "call" if is_call else "frame")
        yield f"{count} refused with {number}, {refusal(number)}: {first_of(origins)}"
