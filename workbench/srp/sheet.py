"""Sheets: as srpsheet prints them, as CSV and as JSON."""
import csv
import json
from dataclasses import asdict

from srp.names import with_colons
from srp.views import port_lines, stream_lines
from srp.words import cause

# Of a port and of a stream on a port, in files of rows.
PARTS = ("port", "total_a", "limit_a", "total_b", "limit_b", "stream", "name", "column", "code", "cause", "listener", "entry")
COLUMNS = ("input", "line", "number", "origin", *PARTS)


def plain(ran):
    """The lines that srpsheet prints."""
    yield from (f"refused {refusal.number}" for refusal in ran.refusals)
    if ran.stopped:
        yield "stop"
    yield from (f"port {line.port} A {line.total_a}/{line.limit_a} B {line.total_b}/{line.limit_b}"
                for line in port_lines(ran.table))
    yield from (f"{line.stream} {line.port} {line.column} {line.code} {line.listener} {line.entry}"
                for line in stream_lines(ran.table))


def stream_row(line):
    """A row of a stream on a port. The StreamID has colons, so that no program takes it for a number."""
    return {"line": "stream", "cause": cause(line.code)} | vars(line) | {"stream": with_colons(line.stream)}


def table_rows(table, names):
    """The rows of a table: its ports, then its streams on each."""
    yield from ({"line": "port"} | asdict(line) for line in port_lines(table))
    yield from (stream_row(line) for line in stream_lines(table, names))


def rows(ran):
    """The rows of a CSV file: one for each line of the sheet."""
    yield from ({"line": "refused", "number": refusal.number, "origin": refusal.origin} for refusal in ran.refusals)
    if ran.stopped:
        yield {"line": "stop", "origin": ran.reason}
    yield from table_rows(ran.table, ran.input.names)


def csv_writer(file, columns):
    writer = csv.DictWriter(file, columns, lineterminator="\n")
    writer.writeheader()
    return writer


def write_csv(all_ran, file):
    writer = csv_writer(file, COLUMNS)
    for ran in all_ran:
        writer.writerows({"input": ran.input.name} | row for row in rows(ran))


def as_object(ran):
    """A sheet as JSON has it."""
    return {
        "input": ran.input.name,
        "notes": ran.input.notes,
        "refused": [asdict(refusal) for refusal in ran.refusals],
        "stopped": ran.reason,
        "ports": [asdict(line) for line in port_lines(ran.table)],
        "streams": [asdict(line) | {"cause": cause(line.code)} for line in stream_lines(ran.table, ran.input.names)],
    }


def as_json(all_ran):
    return json.dumps([as_object(ran) for ran in all_ran], indent=1)
