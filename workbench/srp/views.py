"""What pages and tables show, taken out of the lent table."""
from dataclasses import dataclass

from srp.names import NONE
from srp.words import CLASSES, COLUMNS, ENTRIES, LISTENERS, stream_id, word

INTERVALS = {"A": 8000, "B": 4000}
ADVERTISE, FAILED = COLUMNS.index("advertise"), COLUMNS.index("failed")
FORWARD = ENTRIES.index("forward")
INSUFFICIENT_BANDWIDTH = 1


@dataclass(frozen=True)
class PortLine:
    """What a sheet shows of a port."""
    port: int
    total_a: int
    limit_a: int
    total_b: int
    limit_b: int


@dataclass(frozen=True)
class StreamLine:
    """What a sheet shows of a stream on a port."""
    stream: str
    name: str
    port: int
    column: str
    code: int
    listener: str
    entry: str


@dataclass(frozen=True)
class EdgeLine:
    """Whether the last advance found a port at the edge of each class's domain."""
    port: int
    edge_a: str
    edge_b: str


@dataclass(frozen=True)
class DomainValue:
    """What a port has registered of a class's domain; leaving since a time of the clock, or none."""
    priority: int
    vlan: int
    leaving_since: int | None


@dataclass(frozen=True)
class AskedFor:
    """An address that a port's neighbour has asked for; leaving since a time of the clock, or none."""
    address: int
    leaving_since: int | None


@dataclass(frozen=True)
class Share:
    """What a stream asks for on a port, and what its importance is counted by."""
    stream: str
    rank: int
    second: int
    demand: int


@dataclass(frozen=True)
class Load:
    """A class on a port: what is registered of its domain and whether the port is at its edge; those who hold a share, and those
    who found no room, both in order of importance."""
    port: int
    name: str
    supported: bool
    domains: list
    at_edge: bool
    total: int
    limit: int
    holders: list
    waiting: list

    @property
    def adds_up(self):
        return sum(share.demand for share in self.holders) == self.total


def ports(table):
    return range(1, table.settings.ports + 1)


def port_lines(table):
    return [PortLine(port, table.totals[port - 1].a, table.port_settings[port - 1].limit_a,
                     table.totals[port - 1].b, table.port_settings[port - 1].limit_b) for port in ports(table)]


def of_class(part, field, name):
    """A part's field of class A or B."""
    return getattr(part, f"{field}{name.lower()}")


def domains_of(edge, name):
    """A class's Domain values that are registered, by priority."""
    return [DomainValue(priority, record.vlan, record.since if record.leaving else None)
            for priority, record in enumerate(of_class(edge, "domains_", name)) if record.registered]


def addresses(table):
    """The addresses that were asked for on each port, by its number, in their order."""
    return {port: [AskedFor(record.address, record.since if record.leaving else None)
                   for record in table.edges[port - 1].addresses] for port in ports(table)}


def edge_line(table, port):
    return EdgeLine(port, *("yes" if of_class(table.edges[port - 1], "boundary_", name) else "no" for name in CLASSES))


def parts_of_line(stream, port, names):
    """The parts of what a sheet shows of a stream on a port."""
    result, identifier = stream.results[port - 1], stream_id(stream.stream_id)
    return (identifier, names.of(identifier), port, word(COLUMNS, result.column), result.code, word(LISTENERS, result.listener),
            word(ENTRIES, result.entry))


def stream_line(stream, port, names=NONE):
    return StreamLine(*parts_of_line(stream, port, names))


def stream_lines(table, names=NONE):
    return [stream_line(stream, port, names) for stream in table.streams for port in ports(table)]


def class_of(table, parameters):
    """The class of a priority, or none."""
    classes = {table.settings.priority_a: "A", table.settings.priority_b: "B"}
    return classes.get(parameters.priority)


def demand(parameters, port, name):
    """Bits per second of a stream on a port (35.2.4.2). Their sum is held against the table's total."""
    octets = (parameters.max_frame_size + port.overhead + 1) * parameters.max_interval_frames
    return octets * (2 if port.sends_twice else 1) * 8 * INTERVALS[name]


def shares(table, port, name, is_taken):
    """The shares of a class's streams that are taken by their result and cell on a port, by importance: rank, age, StreamID
    (35.2.4.1)."""
    found = []
    for stream in table.streams:
        result, asked = stream.results[port - 1], stream.settled
        if class_of(table, asked) == name and is_taken(result, stream.cells[port - 1]):
            bandwidth = demand(asked, table.port_settings[port - 1], name)
            found.append(Share(stream_id(stream.stream_id), asked.rank, result.second, bandwidth))
    return sorted(found, key=lambda share: (share.rank, share.second, share.stream))


def holds(result, _cell=None):
    """Whether the stream reserves there: only an Advertise that is asked for forwards."""
    return result.column == ADVERTISE and result.entry == FORWARD


def finds_no_room(result, cell):
    """Whether somebody asks for the stream there, and there is no room for it."""
    return result.column == FAILED and result.code == INSUFFICIENT_BANDWIDTH and cell.listener > 0


def load_of(table, port, name):
    settings, totals, edge = table.port_settings[port - 1], table.totals[port - 1], table.edges[port - 1]
    return Load(port, name, bool(of_class(settings, "supports_", name)),
                domains_of(edge, name), bool(of_class(edge, "boundary_", name)),
                of_class(totals, "", name), of_class(settings, "limit_", name),
                shares(table, port, name, holds), shares(table, port, name, finds_no_room))


def loads(table):
    return [load_of(table, port, name) for port in ports(table) for name in CLASSES]
