"""Texts as in examples/, written from settings and records. They are read by the text tool alone."""
from itertools import groupby

from srp.layout import Port, Settings, length, read, settings_length
from srp.records import ADVANCE, RECEIVE, RECEIVE_MMRP
from srp.words import CLASS_IDS, stream_id

CLASSES = {(1, 1): "AB", (1, 0): "A", (0, 1): "B", (0, 0): "none"}

# The first word of a frame's line.
FRAMES = {RECEIVE: "on", RECEIVE_MMRP: "mmrp"}


def bridge_line(settings):
    return (f"bridge {stream_id(settings.bridge_id)} priorities {settings.priority_a} {settings.priority_b}"
            f" leave {settings.leave_time} vlan {settings.vlan} fanin {settings.fan_in_limit}"
            + (" pruning" if settings.pruning else ""))


def ports_line(count, port):
    """So many ports with these settings."""
    return (f"ports {count} classes {CLASSES[port.supports_a, port.supports_b]} overhead {port.overhead}"
            f" largest {port.largest_frame} limits {port.limit_a} {port.limit_b} latencies {port.latency_a} {port.latency_b}"
            + (" twice" if port.sends_twice else ""))


def settings_lines(octets):
    """The lines of accepted settings."""
    settings = read(Settings, octets)
    places = range(length(Settings), settings_length(settings.ports), length(Port))
    ports = [read(Port, octets[at:at + length(Port)]) for at in places]
    alike = ((port, len(list(group))) for port, group in groupby(ports))
    return [bridge_line(settings)] + [ports_line(count, port) for port, count in alike]


def name_lines(names):
    """The lines that give streams their names."""
    return [f"stream {name} {stream}" for stream, name in names.by_stream.items()]


def domain_line(port, settings):
    """The frame of a neighbour in the bridge's domain: both classes, with the bridge's priorities and VLAN."""
    values = ((CLASS_IDS["B"], settings.priority_b), (CLASS_IDS["A"], settings.priority_a))
    return f"on {port} " + " and ".join(f"domain {class_id} {priority} {settings.vlan}" for class_id, priority in values)


def domain_lines(settings):
    """Such a frame on each port."""
    return [domain_line(port, settings) for port in range(1, settings.ports + 1)]


def record_line(record):
    """The line of a record."""
    if record.is_frame:
        return f"{FRAMES[record.kind]} {record.port} octets {record.body.hex()}"
    if record.kind == ADVANCE:
        return f"time {record.time}"
    return f"raw {record.octets.hex()}"
