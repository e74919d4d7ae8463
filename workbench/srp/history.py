"""What each accepted advance of an input left, so that a study over time needs no program of its own."""
import json
from dataclasses import asdict, dataclass

from srp import answers, layout, programs, records, sheet
from srp.refusals import Refusal
from srp.views import StreamLine, class_of, demand, of_class, parts_of_line, port_lines, ports
from srp.words import CLASSES, cause, rate, seconds

COLUMNS = ("input", "advance", "time", "line", *sheet.PARTS, "class", "demand")


@dataclass(frozen=True)
class Choice:
    """The ports and streams that are shown; all where none is named."""
    ports: frozenset = frozenset()
    streams: frozenset = frozenset()

    def has_port(self, port):
        return not self.ports or port in self.ports

    def has_stream(self, stream):
        return not self.streams or stream in self.streams


@dataclass(frozen=True)
class StreamAt(StreamLine):
    """What a sheet shows of a stream on a port, with its class and what it asks for there, where it has a class."""
    class_name: str
    demand: int | None

    @property
    def state(self):
        """What a change is told by."""
        return f"{self.column} {self.code} ({cause(self.code)})" if self.code else f"{self.column}, {self.entry}"


@dataclass(frozen=True)
class Moment:
    """An accepted advance: its number among them from 1 on, its time, and what it left."""
    advance: int
    time: int
    ports: list
    streams: list


def stream_at(table, stream, port, names):
    name = class_of(table, stream.settled)
    bandwidth = demand(stream.settled, table.port_settings[port - 1], name) if name else None
    return StreamAt(*parts_of_line(stream, port, names), name or "", bandwidth)


def moment(number, time, table, names, choice):
    """What is shown of a table."""
    shown = [port for port in ports(table) if choice.has_port(port)]
    streams = [stream_at(table, stream, port, names) for stream in table.streams for port in shown]
    return Moment(number, time, [line for line in port_lines(table) if line.port in shown],
                  [line for line in streams if choice.has_stream(line.stream)])


def with_tables(given):
    """The records of an input with their places, and behind each advance one that prints the table."""
    for place, record in enumerate(given.records):
        yield place, record
        if record.kind == records.ADVANCE:
            yield place, records.Record(records.TABLE_OCTETS)


def moments(given, choice=Choice(), tell=None, command=None, refused=None):
    """The moments of an input, as it is run. Refused, where it is given, is a list that gets its refused calls."""
    made, number, accepted = list(with_tables(given)), 0, None
    lines = programs.each_call([record for _, record in made], tell, command)
    for (place, record), line in zip(((place, record) for place, record in made if record.is_answered), lines):
        answer = answers.read_line(line)
        if refused is not None and type(answer) is answers.Answer and not answer.accepted:
            refused.append(Refusal(given.origin(place), record.is_frame, answer.number))
        if record.kind == records.ADVANCE:
            accepted = record.time if answer.accepted else None
        elif record.octets == records.TABLE_OCTETS and accepted is not None:
            number += 1
            yield moment(number, accepted, layout.read_table(answer.octets), given.names, choice)
            accepted = None


def on_worker(_shared, part, command):
    """The moments of an input, and its refused calls, on a worker of a cluster."""
    given, choice, refused = *part, []
    return list(moments(given, choice, command=command, refused=refused)), refused


def rows(name, one):
    """The rows of a moment in CSV."""
    head = {"input": name, "advance": one.advance, "time": one.time}
    yield from (head | {"line": "port"} | asdict(line) for line in one.ports)
    for line in one.streams:
        row = head | sheet.stream_row(line)
        yield row | {"class": row.pop("class_name")}


def write_csv(histories, file):
    writer = sheet.csv_writer(file, COLUMNS)
    for name, found in histories:
        for one in found:
            writer.writerows(rows(name, one))


def as_json(histories):
    return json.dumps([{"input": name, "advances": [
        {"advance": one.advance, "time": one.time, "ports": [asdict(line) for line in one.ports],
         "streams": [asdict(line) | {"cause": cause(line.code)} for line in one.streams]} for one in found]}
        for name, found in histories], indent=1)


@dataclass(frozen=True)
class Change:
    """What an advance changed: of a stream on a port, or of a class's total on a port."""
    time: int
    port: int
    stream: str
    name: str
    before: str
    after: str

    @property
    def words(self):
        who = f"{self.stream} {self.name}".rstrip()
        return f"{seconds(self.time)} port {self.port} {who}: {self.before} -> {self.after}"


def changes(found):
    """The changes of each moment against the one before."""
    totals, states = {}, {}
    for one in found:
        now = {(line.port, f"class {name}"): of_class(line, "total_", name) for line in one.ports for name in CLASSES}
        for (port, name), total in now.items():
            if totals.get((port, name), 0) != total:
                yield Change(one.time, port, name, "", rate(totals.get((port, name), 0)), rate(total))
        held = {(line.stream, line.port): line for line in one.streams}
        for stream, port in sorted(held | states):
            before, after = (side[stream, port].state if (stream, port) in side else "not held" for side in (states, held))
            if before != after and {before, after} != {"not held", "none, none"}:
                yield Change(one.time, port, stream, held.get((stream, port), states.get((stream, port))).name, before, after)
        totals, states = now, held
