#!/usr/bin/python3
"""A wrong bridge, for the tests alone: first come, first served. It hands the records on to the proved bridge, and settles after
each frame at a later second, so that who came first is the older one. All times are stretched to make room for these seconds."""
import sys
from pathlib import Path

sys.dont_write_bytecode = True
sys.path.insert(0, str(Path(__file__).resolve().parents[1]))

from srp import programs, records

STRETCHED = 100


def main():
    calls, rest = records.split(sys.stdin.buffer.read(), records.is_of_calls)
    made, is_printed, clock = [], [], 0
    for record in calls:
        if record.kind == records.START:
            clock = 0
        if record.kind == records.ADVANCE:
            clock = record.time * STRETCHED
            record = records.advance(clock)
        made.append(record)
        is_printed.append(True)
        if record.is_frame:
            clock += STRETCHED
            made.append(records.advance(clock))
            is_printed.append(False)
    lines = programs.run(programs.PROVED_CALLS, b"".join(record.octets for record in made) + rest).decode().splitlines()
    print("\n".join(line for line, printed in zip(lines, is_printed) if printed))


main()
