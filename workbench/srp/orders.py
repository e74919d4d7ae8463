"""Orders of the same frames. An order keeps each port's own; where no other call stands between frames, ports are served as chance
has it."""
import random
from itertools import groupby

from srp import records, texts
from srp.faults import Fault


def interleaved(group, calls, chance):
    """Frames served in a random order of ports: every order that keeps each port's own is as likely."""
    turns = [calls[place].port for place in group]
    waiting = {port: iter([place for place in group if calls[place].port == port]) for port in set(turns)}
    chance.shuffle(turns)
    return [next(waiting[port]) for port in turns]


def order(calls, seed, number):
    """The places of an input's records, in the order of that number. It depends on nothing else, so shards share the work."""
    chance, places = random.Random(f"{seed} {number}"), []
    for is_frame, group in groupby(range(len(calls)), key=lambda place: calls[place].is_frame):
        places += interleaved(list(group), calls, chance) if is_frame else group
    return places


def check(given):
    """Whether an input can be started again and again in one process."""
    given.check_end()
    if not given.records or given.records[0].kind != records.START:
        raise Fault(f"{given.name}: restarts take an input that begins with settings")
    if any(record.kind == records.STORE for record in given.records):
        raise Fault(f"{given.name}: an input that stores octets in the table, or lends less of it, cannot be restarted")


def as_text(given, seed, number):
    """An order as a text, with the names of the input's streams."""
    check(given)
    lines = [texts.record_line(given.records[place]) for place in order(given.records, seed, number)[1:]]
    start = [] if given.is_sheet else ["start"]
    return "\n".join([*texts.name_lines(given.names), *texts.settings_lines(given.settings), *start, *lines]) + "\n"
