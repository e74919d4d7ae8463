"""What differs between two tables: every field of settings, clock, the ports' own parts, cells, results and what ports send; or
what is decided alone."""
from dataclasses import dataclass, fields

from srp.names import NONE
from srp.views import of_class, ports
from srp.words import APPLICANTS, CLASSES, COLUMNS, ENTRIES, LISTENERS, address, cause, stream_id, word

# What a number of a field is in words; those of other fields are themselves.
FLAG = ("no", "yes")
SHOWN = {
    "bridge_id": stream_id, "failed_bridge": stream_id, "talker_failed_bridge": stream_id,
    "destination": address, "talker_destination": address, "settled_destination": address, "address": address,
    "declared_destination": address, "declared_failed_bridge": stream_id,
    "declared_code": lambda value: f"{value} {cause(value)}".rstrip(), "declared_type": lambda value: word(LISTENERS, value),
    "applicant": lambda value: word(APPLICANTS, value),
    "column": lambda value: word(COLUMNS, value), "talker": lambda value: word(COLUMNS, value),
    "listener": lambda value: word(LISTENERS, value), "registered_listener": lambda value: word(LISTENERS, value),
    "entry": lambda value: word(ENTRIES, value),
    "code": lambda value: f"{value} {cause(value)}".rstrip(), "talker_code": lambda value: f"{value} {cause(value)}".rstrip(),
} | {name: lambda value: word(FLAG, value) for name in (
    "held", "registered", "leaving", "edge_a", "edge_b", "talker_leaving", "listener_leaving", "talker_changed", "supports_a",
    "supports_b", "sends_twice", "pruning", "leave_all_due")}

# Names of fields that say too little without what they are a part of. Those of a cell's Talker begin with talker.
RESULT = {"latency": "latency_out", "second": "entry_since"}
CELL = {"changed": "talker_changed", "latency": "talker_latency", "failed_bridge": "talker_failed_bridge", "code": "talker_code",
        "first_latency": "talker_first_latency", "listener": "registered_listener"}
SENT = {"latency": "declared_latency", "failed_bridge": "declared_failed_bridge", "code": "declared_code",
        "declared": "declared_type"}
SENDER = {"leave_all": "leave_all_due"}
# Of results, what is decided.
DECIDED = ("column", "code", "listener", "entry", "total_a", "total_b")


@dataclass(frozen=True)
class Place:
    """Where something stands in a table, in the order in which differences are shown."""
    stream: str = ""
    port: int = 0
    part: str = ""

    def words(self, names=NONE):
        parts = [names.beside(self.stream)] if self.stream else []
        parts += [f"port {self.port}"] if self.port else []
        return " ".join([*parts, self.part]).strip() or "bridge"


@dataclass(frozen=True)
class Difference:
    """A field that differs, and what it is on both sides; nothing where a side has no such place."""
    place: Place
    field: str
    first: str
    second: str


def of_part(part, place, renamed=None, prefix=""):
    """The fields of a part, by place and name. Parts within it are left to others."""
    for each in fields(part):
        value = getattr(part, each.name)
        if isinstance(value, int) and each.name != "zero":
            yield (place, prefix + (renamed or {}).get(each.name, each.name)), value


def of_edge(edge, port):
    """What a port holds by itself."""
    for name in CLASSES:
        yield (Place(port=port), f"edge_{name.lower()}"), of_class(edge, "boundary_", name)
        for priority, record in enumerate(of_class(edge, "domains_", name)):
            yield from of_part(record, Place(port=port, part=f"Domain of class {name}, priority {priority}"))
    for record in edge.addresses:
        yield from of_part(record, Place(port=port, part=f"address {address(record.address)}"))


def of_sender(sender, port):
    """What a port sends by itself."""
    yield from of_part(sender, Place(port=port), SENDER)
    for name in CLASSES:
        for priority, sent in enumerate(of_class(sender, "domains_", name)):
            yield from of_part(sent, Place(port=port, part=f"sends Domain of class {name}, priority {priority}"))


def of_sends(sends, stream, port):
    """What a port sends of a stream."""
    for name, sent in (("Advertise", sends.advertise), ("Failed", sends.failed)):
        place = Place(stream, port, f"sends Talker {name}")
        yield from of_part(sent, place, SENT)
        yield from of_part(sent.parameters, place, prefix="declared_")
    yield from of_part(sends.listener, Place(stream, port, "sends Listener"), SENT)


def of_stream(stream, port):
    """What is registered of a stream on a port, decided, and sent."""
    place, cell = Place(stream_id(stream.stream_id), port), stream.cells[port - 1]
    yield from of_part(cell, place, CELL)
    yield from of_part(cell.parameters, place, prefix="talker_")
    yield from of_part(stream.results[port - 1], place, RESULT)
    yield from of_sends(stream.sends[port - 1], stream_id(stream.stream_id), port)


def all_fields(table):
    """Every field of a table, by place and name."""
    yield from of_part(table.settings, Place())
    yield (Place(), "clock"), table.clock
    for port in ports(table):
        yield from of_part(table.port_settings[port - 1], Place(port=port))
        yield from of_part(table.totals[port - 1], Place(port=port), prefix="total_")
        yield from of_edge(table.edges[port - 1], port)
        yield from of_sender(table.senders[port - 1], port)
    for stream in table.streams:
        whole = Place(stream_id(stream.stream_id))
        yield (whole, "held"), 1
        yield from of_part(stream.settled, whole, prefix="settled_")
        for port in ports(table):
            yield from of_stream(stream, port)


def shown(name, value):
    """A field's value in words; nothing where a side has no such place."""
    return "" if value is None else SHOWN.get(name, str)(value)


def between(first, second, decided=False):
    """The differences of two tables; with decided those of what the last advance decided alone. What one side lacks is zero
    there."""
    left, right = dict(all_fields(first)), dict(all_fields(second))
    found = []
    for place, name in left | right:
        before, after = left.get((place, name)), right.get((place, name))
        if (before or 0) != (after or 0) and (not decided or name in DECIDED):
            found.append(Difference(place, name, shown(name, before), shown(name, after)))
    return sorted(found, key=lambda one: (one.place.stream, one.place.port))


def as_object(difference, names):
    """A difference as JSON has it."""
    place = difference.place
    return {"stream": place.stream, "name": names.of(place.stream), "port": place.port or None, "part": place.part,
            "field": difference.field, "first": difference.first, "second": difference.second}
