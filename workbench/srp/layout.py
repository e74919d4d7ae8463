"""The lent table, as docs/TABLE.md lays it out. The layout stands here and nowhere else in the workbench: each class lists its
fields with their widths, from which places and lengths follow. Numbers are most significant octet first."""
from dataclasses import dataclass, field, fields
from functools import cache, lru_cache

from srp.faults import Fault


def bits(width):
    """A field of so many bits."""
    return field(metadata={"bits": width})


def octets(count):
    """A field of so many octets."""
    return bits(8 * count)


def one(part):
    """A part that a class of its own describes."""
    return field(metadata={"part": part, "times": None})


def several(part, times, used=None):
    """So many parts of one class, of which only the first `used` (a field before) are read, where it is given."""
    return field(metadata={"part": part, "times": times, "used": used})


@cache
def width(description):
    """The bits that a class describes."""
    return sum(width_of_field(each.metadata) for each in fields(description))


def width_of_field(layout):
    return width(layout["part"]) * (layout["times"] or 1) if "part" in layout else layout["bits"]


def length(description):
    """The octets that a class describes."""
    return width(description) // 8


def place(description, name):
    """The octet where a field begins."""
    names = [each.name for each in fields(description)]
    return sum(width_of_field(each.metadata) for each in fields(description)[:names.index(name)]) // 8


def length_of(description, name):
    """The octets of a field."""
    return next(width_of_field(each.metadata) for each in fields(description) if each.name == name) // 8


def number(room, at, size):
    """The number of so many bits from a bit on."""
    begin, end, shift, mask = covering(at, size)
    return int.from_bytes(room[begin:end], "big") >> shift & mask


def covering(at, size):
    """The octets that have so many bits from a bit on, how far these stand from their end, and the greatest number of them."""
    end = at + size
    return at // 8, (end + 7) // 8, -end % 8, (1 << size) - 1


@cache
def plan(description):
    """How an object of a class is read: for each field its name, its first bit and what the layout says of it."""
    at, steps = 0, []
    for each in fields(description):
        steps.append((each.name, at, each.metadata))
        at += width_of_field(each.metadata)
    return steps


@cache
def numbers_of(description):
    """The places of a class's numbers, where it has no parts; none where it has."""
    steps = plan(description)
    return None if any("part" in layout for _, _, layout in steps) else [covering(at, layout["bits"]) for _, at, layout in steps]


def read(description, room):
    """The object of a class that stands in octets."""
    values = {}
    for name, at, layout in plan(description):
        values[name] = read_field(layout, room, at, values)
    return description(**values)


# Records are many, and mostly alike: a table has thousands that are zero. An object that cannot change is made once.
@lru_cache(maxsize=1 << 14)
def read_record(description, room):
    """The same of a record: a class whose octets are few."""
    places = numbers_of(description)
    if places is None:
        return read(description, room)
    return description(*[int.from_bytes(room[begin:end], "big") >> shift & mask for begin, end, shift, mask in places])


def read_field(layout, room, at, before):
    if "part" not in layout:
        return number(room, at, layout["bits"])
    part, first = layout["part"], at // 8
    size = length(part)
    if layout["times"] is None:
        return read_record(part, room[first:first + size])
    times = min(before.get(layout["used"], layout["times"]), layout["times"])
    return tuple(read_record(part, room[begin:begin + size]) for begin in range(first, first + size * times, size))


PORTS = 8
STREAMS = 64
PRIORITIES = 8
ADDRESSES = 64


@dataclass(frozen=True)
class Port:
    """The settings of a port."""
    supports_a: int = bits(1)
    supports_b: int = bits(1)
    sends_twice: int = bits(1)
    zero: int = bits(5)
    overhead: int = octets(1)
    largest_frame: int = octets(2)
    limit_a: int = octets(5)
    limit_b: int = octets(5)
    latency_a: int = octets(4)
    latency_b: int = octets(4)


@dataclass(frozen=True)
class Settings:
    """The settings of the whole bridge."""
    bridge_id: int = octets(8)
    ports: int = bits(4)
    priority_a: int = bits(3)
    priority_b: int = bits(3)
    leave_time: int = bits(14)
    pruning: int = bits(1)
    zero: int = bits(3)
    vlan: int = bits(12)
    fan_in_limit: int = octets(1)


@dataclass(frozen=True)
class Parameters:
    """What a Talker asks for."""
    destination: int = octets(6)
    vlan: int = octets(2)
    max_frame_size: int = octets(2)
    max_interval_frames: int = octets(2)
    priority: int = bits(3)
    rank: int = bits(1)
    zero: int = bits(4)


@dataclass(frozen=True)
class Cell:
    """What a port has registered of a stream."""
    talker: int = octets(1)
    changed: int = octets(1)
    talker_leaving: int = octets(1)
    talker_since: int = octets(4)
    parameters: Parameters = one(Parameters)
    latency: int = octets(4)
    failed_bridge: int = octets(8)
    code: int = octets(1)
    first_latency: int = octets(4)
    listener: int = octets(1)
    listener_leaving: int = octets(1)
    listener_since: int = octets(4)


@dataclass(frozen=True)
class Result:
    """What the last advance decided of a stream on a port."""
    column: int = octets(1)
    latency: int = octets(4)
    failed_bridge: int = octets(8)
    code: int = octets(1)
    entry: int = octets(1)
    second: int = octets(4)
    listener: int = octets(1)


@dataclass(frozen=True)
class Totals:
    """What is reserved on a port. Class B may borrow of class A's limit."""
    a: int = octets(5)
    b: int = octets(6)


@dataclass(frozen=True)
class Domain:
    """A Domain record: what a port has registered for a class ID and priority."""
    registered: int = octets(1)
    leaving: int = octets(1)
    since: int = octets(4)
    vlan: int = octets(2)


@dataclass(frozen=True)
class Address:
    """An address record: what a port's neighbour has asked for by an MMRP frame."""
    registered: int = octets(1)
    leaving: int = octets(1)
    since: int = octets(4)
    address: int = octets(6)


@dataclass(frozen=True)
class Edge:
    """What a port holds by itself: the Domain records of class ID 5, which is class B, and of class ID 6, each by priority; the
    boundary flags that the last advance decided; and the addresses that were asked for, of which so many are held."""
    domains_b: tuple[Domain, ...] = several(Domain, PRIORITIES)
    domains_a: tuple[Domain, ...] = several(Domain, PRIORITIES)
    boundary_a: int = octets(1)
    boundary_b: int = octets(1)
    addresses_held: int = octets(1)
    addresses: tuple[Address, ...] = several(Address, ADDRESSES, used="addresses_held")


@dataclass(frozen=True)
class DomainSent:
    """What a port sends of a Domain value, which is its own: the Applicant."""
    applicant: int = octets(1)


@dataclass(frozen=True)
class Sender:
    """What a port sends by itself: the Applicants of class ID 5, which is class B, and of class ID 6, each by priority; whether a
    LeaveAll is due, and the clock from which the time to the next one counts."""
    domains_b: tuple[DomainSent, ...] = several(DomainSent, PRIORITIES)
    domains_a: tuple[DomainSent, ...] = several(DomainSent, PRIORITIES)
    leave_all: int = octets(1)
    leave_all_since: int = octets(4)


@dataclass(frozen=True)
class AdvertiseSent:
    """What a port sends of a Talker Advertise: the Applicant, and the values last declared."""
    applicant: int = octets(1)
    parameters: Parameters = one(Parameters)
    latency: int = octets(4)


@dataclass(frozen=True)
class FailedSent:
    """The same of a Talker Failed."""
    applicant: int = octets(1)
    parameters: Parameters = one(Parameters)
    latency: int = octets(4)
    failed_bridge: int = octets(8)
    code: int = octets(1)


@dataclass(frozen=True)
class ListenerSent:
    """The same of a Listener, whose one value is its declaration type."""
    applicant: int = octets(1)
    declared: int = octets(1)


@dataclass(frozen=True)
class Sends:
    """What a port sends of a stream."""
    advertise: AdvertiseSent = one(AdvertiseSent)
    failed: FailedSent = one(FailedSent)
    listener: ListenerSent = one(ListenerSent)


@dataclass(frozen=True)
class Stream:
    """A stream record."""
    stream_id: int = octets(8)
    settled: Parameters = one(Parameters)
    cells: tuple[Cell, ...] = several(Cell, PORTS)
    results: tuple[Result, ...] = several(Result, PORTS)
    sends: tuple[Sends, ...] = several(Sends, PORTS)


@dataclass(frozen=True)
class Table:
    """The whole table."""
    settings: Settings = one(Settings)
    port_settings: tuple[Port, ...] = several(Port, PORTS)
    clock: int = octets(4)
    held: int = octets(1)
    totals: tuple[Totals, ...] = several(Totals, PORTS)
    edges: tuple[Edge, ...] = several(Edge, PORTS)
    senders: tuple[Sender, ...] = several(Sender, PORTS)
    streams: tuple[Stream, ...] = several(Stream, STREAMS, used="held")


def settings_length(ports):
    """The octets of settings with so many ports."""
    return length(Settings) + length(Port) * ports


def read_table(room):
    """The table in its octets."""
    if len(room) != length(Table):
        raise Fault(f"the bridge's table has {len(room)} octets and that of workbench/srp/layout.py {length(Table)}")
    return read(Table, room)
