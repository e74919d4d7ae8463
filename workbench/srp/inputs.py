"""Inputs of every kind, as call records: texts, records of srpsheet and srpcalls, and captures."""
import re
from bisect import bisect_right
from dataclasses import dataclass, field, replace

from srp import answers, captures, files, layout, packets, programs, records
from srp.faults import Fault
from srp.names import NONE, Names
from srp.reading import Reading
from srp.refusals import Refusal

# Control characters that no text has.
CONTROL = re.compile(rb"[\x00-\x08\x0e-\x1f]")


@dataclass(frozen=True)
class Input:
    """Call records, and the rest that stops the reading. A sheet's settings are its first record, a start. Kind is text, capture or
    records; origins say where each record comes from, and behind the last one where the reading stops; notes are what the reader
    should know."""
    name: str
    records: list
    rest: bytes
    is_sheet: bool
    kind: str = "records"
    names: Names = NONE
    origins: list = field(default_factory=list)
    notes: list = field(default_factory=list)

    @property
    def settings(self):
        """The octets of the first start."""
        for record in self.records:
            if record.kind == records.START:
                return record.body
        raise Fault(f"{self.name} has no settings")

    def with_settings(self, octets):
        """The same with other settings, in every start."""
        if all(record.kind != records.START for record in self.records):
            raise Fault(f"{self.name} has no start, whose settings others could stand in for")
        start = records.start(octets)
        return replace(self, records=[start if record.kind == records.START else record for record in self.records])

    def origin(self, place):
        """Where a record comes from, or with the number of records where the reading stops."""
        if place < len(self.origins):
            return self.origins[place]
        if self.is_sheet:
            return f"record {place}" if place else "the settings"
        return f"record {place + 1}"

    def check_end(self):
        """Whether it is read to its end, for what would not show that it isn't."""
        if self.rest:
            raise Fault(f"{self.name}: the reading stops early, at a record that is cut or unknown:"
                        f" {self.origin(len(self.records))}")
        rule = programs.broken_rule(self.settings) if self.is_sheet else ""
        if rule:
            raise Fault(f"{self.name}: the reading stops early, for the settings are refused: {rule}")


@dataclass(frozen=True)
class Ran:
    """An input that was run: the answers of its calls, in the order of the records that print, and the table left."""
    input: Input
    answers: list
    table: layout.Table

    @property
    def refused(self):
        """The calls without parts of an answer that were refused."""
        return [answer for answer in self.answers if type(answer) is answers.Answer and not answer.accepted]

    @property
    def refusals(self):
        """The same, each with where it comes from. A sheet whose settings are refused has none: it ends there."""
        if self.input.is_sheet and not self.has_table:
            return []
        asked = ((place, record) for place, record in enumerate(self.input.records) if record.is_answered)
        return [Refusal(self.input.origin(place), record.is_frame, answer.number)
                for (place, record), answer in zip(asked, self.answers)
                if type(answer) is answers.Answer and not answer.accepted]

    @property
    def has_table(self):
        return self.table.settings.ports > 0

    @property
    def stopped(self):
        """Whether the reading ends early: a sheet's by its settings, any by a record."""
        return bool(self.input.rest) or self.input.is_sheet and not self.has_table

    @property
    def reason(self):
        """Why the reading ends early; nothing where it doesn't."""
        if self.input.is_sheet and not self.has_table:
            return f"the settings are refused: {programs.broken_rule(self.input.settings)}"
        return f"{self.input.origin(len(self.input.records))}: no record begins so, or it is cut" if self.input.rest else ""


def of_sheet(name, octets):
    """The input that the octets are for srpsheet: settings as long as their ports field says, then records."""
    head = octets[:layout.length(layout.Settings)].ljust(layout.length(layout.Settings), b"\0")
    end = layout.settings_length(layout.read(layout.Settings, head).ports)
    calls, rest = records.split(octets[end:], records.is_of_a_sheet)
    return Input(name, [records.start(octets[:end]), *calls], rest, True)


def of_calls(name, octets):
    """The input that the octets are for srpcalls."""
    calls, rest = records.split(octets, records.is_of_calls)
    return Input(name, calls, rest, False)


def lines_of(given, begins):
    """The line that each record of a text begins on, and the rest behind the last one."""
    places, lines, at, found = *(zip(*begins) if begins else ((), ())), 0, []
    for octets in [record.octets for record in given.records] + [given.rest]:
        line = bisect_right(places, at)
        found.append(f"line {lines[line - 1]}" if line else "the text makes no record")
        # a sheet's settings stand there without the head of a start
        at += len(octets) - (3 if given.is_sheet and not at else 0)
    return found


def of_text(name, text):
    """The input of a text: that of a sheet, or where it has a start that of calls."""
    try:
        given = of_sheet(name, programs.records_of_text(text, "sheet"))
    except Fault as of_a_sheet:
        try:
            given = of_calls(name, programs.records_of_text(text, "calls"))
        except Fault as other:
            raise Fault(f"{name}: {max(of_a_sheet, other, key=line_of_fault)}") from None
        if all(record.kind != records.START for record in given.records):
            raise Fault(f"{name}: {of_a_sheet}") from None
    names, begins = programs.index_of_text(text, "sheet" if given.is_sheet else "calls")
    return replace(given, kind="text", names=names, origins=lines_of(given, begins))


def line_of_fault(fault):
    """The line that a fault names: the reading that came further says more."""
    found = re.search(r"line (\d+)", str(fault))
    return int(found[1]) if found else 0


def of_capture(name, octets, reading):
    """The input of a capture."""
    captured = captures.read(name, octets, reading)
    calls, origins = captures.calls_of(captured)
    return Input(name, calls, b"", not captured.has_mmrp, "capture", NONE, origins, captured.notes)


def of_octets(name, octets, reading=Reading(), calls=False):
    """The input that octets are. Reading is how captures are read, with settings that stand in for those of any input; records are
    those of srpsheet, or with calls those of srpcalls."""
    files.check_octets(name, octets)
    if packets.is_capture(octets):
        return of_capture(name, octets, reading)
    is_named_text = files.unpacked_name(name).endswith(".txt")
    has_control = CONTROL.search(octets)
    if is_named_text and has_control:
        raise Fault(f"{name} has octets that no text has; the name of records doesn't end in .txt")
    if has_control:
        given = of_calls(name, octets) if calls else of_sheet(name, octets)
    else:
        given = of_text(name, octets)
    return given.with_settings(reading.settings) if reading.settings else given


def load(path, reading=Reading(), calls=False):
    """The input in a file, or with `-` on standard input."""
    return of_octets(path, files.octets_of(path), reading, calls)


def run(given, tell=None):
    """Makes the calls of an input, in one run of srpcalls that ends with the table's octets."""
    lines = programs.calls([*given.records, records.Record(records.TABLE_OCTETS)], tell)
    *found, table = (answers.read_line(line) for line in lines)
    return Ran(given, found, layout.read_table(table.octets))
