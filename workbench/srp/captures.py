"""Frames of a capture, of MSRP and of MMRP, as the calls of a bridge, and these as a text."""
from dataclasses import dataclass

from srp import layout, link, packets, phrases, programs, protocols, records, sayings, texts
from srp.faults import Fault
from srp.reading import OWN_PORTS
from srp.words import first_of, rate, seconds

LAST_CLOCK = (1 << 32) - 1


@dataclass(frozen=True, slots=True)
class Frame:
    """A frame of a capture that a bridge takes; port is none where its source is no port."""
    packet: packets.Packet
    source: str
    interface: str
    port: int | None
    protocol: protocols.Protocol
    pdu: bytes

    @property
    def record(self):
        return records.frame(self.protocol.kind, self.port, self.pdu)

    @property
    def origin(self):
        """What a refusal of it is told with."""
        return f"packet {self.packet.number}, on port {self.port} from {self.source}"


@dataclass(frozen=True)
class Captured:
    """A capture as calls: the lines of its settings and of neighbours that are supposed, the calls behind these, each with the
    frame that it hands over, and what is said of the reading."""
    settings: list
    supposed: list
    steps: list
    notes: list

    @property
    def has_mmrp(self):
        """Whether it is one of calls, which has a start: a sheet has no record for an MMRP frame."""
        return any(frame and frame.protocol is protocols.MMRP for _, frame in self.steps)


def frame_of(packet, reading):
    """The frame in a packet, if it is one of MSRP or MMRP and not left out."""
    source, interface, kind, payload = link.taken_apart(packet)
    protocol = protocols.BY_ETHERTYPE.get(kind)
    is_cut = packet.length > len(packet.octets)
    if not protocol and (kind or not is_cut):
        return None
    source = link.as_address(source)
    if reading.leaves_out(source, interface):
        return None
    if is_cut:
        raise Fault(f"packet {packet.number} is cut: {len(packet.octets)} of its {packet.length} octets were captured")
    return Frame(packet, source, interface, reading.port_of(source, interface), protocol, protocol.without_padding(payload))


def check_sources(frames):
    """Whether every frame is that of a port. The first one that is not is named, and all their sources."""
    foreign = {frame.source: frame for frame in reversed(frames) if frame.port is None}
    if foreign:
        first = min(foreign.values(), key=lambda frame: frame.packet.number)
        options = " ".join(f"--port {source}=N" for source in sorted(foreign))
        raise Fault(f"packet {first.packet.number} is from {first.source} on interface {first.interface}, which is no port;"
                    f" give {options}, or --ignore for the bridge's own")


def frames_of(all_packets, reading):
    """The frames of MSRP and MMRP among packets, in their order."""
    frames = [frame for packet in all_packets if (frame := frame_of(packet, reading))]
    if not frames:
        taken = " or ".join(f"{one.name} (EtherType {kind:04x})" for kind, one in protocols.BY_ETHERTYPE.items())
        first = f"; packet 1 has EtherType {link.taken_apart(all_packets[0])[2]:04x}" if all_packets else ""
        raise Fault(f"none of {len(all_packets)} packets is {taken}{first}")
    check_sources(frames)
    return frames


def clock_of(frame, first):
    """When a frame arrived. Captures written here have the bridge's own clock; others count from their first frame."""
    base = 0 if first.packet.time <= LAST_CLOCK else first.packet.time
    clock = frame.packet.time - base
    if clock > LAST_CLOCK:
        raise Fault(f"packet {frame.packet.number} comes later than the bridge's clock goes")
    return clock


def end_of(clock, last, reading):
    """The time of the last advance."""
    if reading.until is None:
        return clock
    if not clock <= reading.until <= LAST_CLOCK:
        raise Fault(f"--until {reading.until}: packet {last.packet.number} comes at {clock}, and the clock goes to {LAST_CLOCK}")
    return reading.until


def steps_of(frames, reading):
    """The calls of frames: an advance to each frame's time before it, and one more behind the last. The frames that go back in time
    too, which are taken at the time of those before."""
    steps, back, clock = [], [], 0
    for frame in frames:
        time = clock_of(frame, frames[0])
        if time > clock:
            steps.append((records.advance(time), None))
        elif time < clock:
            back.append(f"packet {frame.packet.number} by {seconds(clock - time)}")
        clock = max(clock, time)
        steps.append((frame.record, frame))
    steps.append((records.advance(end_of(clock, frames[-1], reading)), None))
    return steps, back


def default_settings(frames, ports):
    """A bridge as in the worked example, with as many ports as are named."""
    highest = max(ports.values() if ports is not OWN_PORTS else (frame.port for frame in frames))
    return ["bridge 8000000000000001", f"ports {min(max(highest, 1), layout.PORTS)}"]


def settings_of(lines):
    """The settings in lines, as octets."""
    return programs.records_of_text("\n".join(lines).encode(), "sheet")


def taken_for_settings(lines):
    """What is said where a capture has no settings, and some are supposed."""
    octets = settings_of(lines)
    whole, port = layout.read(layout.Settings, octets), layout.read(layout.Port, octets[layout.length(layout.Settings):])
    return (f"no --settings are given, and what is reserved and refused follows from those of the worked example:"
            f" {whole.ports} ports, each with limits of {rate(port.limit_a)} (A) and {rate(port.limit_b)} (B), overhead"
            f" {port.overhead}, largest frame {port.largest_frame}, latencies 0; priorities {whole.priority_a} and"
            f" {whole.priority_b}, VLAN {whole.vlan}, leave time {seconds(whole.leave_time)}")


def check_ports(frames, reading):
    """Whether the settings that are given have every port of the frames."""
    ports = layout.read(layout.Settings, reading.settings).ports
    for frame in frames:
        if frame.port > ports:
            raise Fault(f"packet {frame.packet.number} arrives on port {frame.port}, and the settings that are given have"
                        f" {ports} port{'s' * (ports > 1)}")


def read(name, octets, reading):
    """A capture as calls."""
    try:
        all_packets, cut = packets.packets(octets)
        frames = frames_of(all_packets, reading)
        if reading.settings:
            check_ports(frames, reading)
        steps, back = steps_of(frames, reading)
    except Fault as fault:
        raise Fault(f"{name}: {fault}") from None
    settings = texts.settings_lines(reading.settings) if reading.settings else default_settings(frames, reading.ports)
    supposed = texts.domain_lines(layout.read(layout.Settings, settings_of(settings))) if reading.domain else []
    notes = [f"packet {cut} is cut by the end of the file, and left out"] if cut else []
    notes += [f"packets go back in time, and are taken at that of the packet before: {first_of(back)}"] if back else []
    notes += [] if reading.settings else [taken_for_settings(settings)]
    return Captured(settings, supposed, steps, [f"{name}: {note}" for note in notes])


def calls_of(captured):
    """The records of a capture's calls, and where each comes from."""
    opening = programs.records_of_text("\n".join([*captured.settings, "start", *captured.supposed]).encode(), "calls", "quiet")
    first, _ = records.split(opening, records.is_of_calls)
    origins = ["the settings", *["a supposed neighbour"] * (len(first) - 1)]
    behind = [frame.origin if frame else "an advance" for _, frame in captured.steps]
    return first + [record for record, _ in captured.steps], origins + behind


def lines_in_words(record):
    """The line of a record in words; where the text format has none for its frame, comments before it say what it says."""
    line = phrases.line_of(record)
    if not record.is_frame or line != texts.record_line(record):
        return [line]
    return [*(f"#   {words}" for words in sayings.said_by(protocols.BY_KIND[record.kind], record.body)), line]


def text_of(captured, is_named=False, has_words=False):
    """A capture's calls as a text. With is_named each frame's packet is named in a comment; with has_words frames are in words."""
    lines = [*captured.settings, *["start"] * captured.has_mmrp]
    if captured.supposed:
        lines += ["# supposed, and not in the capture: each port's neighbour is in the bridge's domain", *captured.supposed]
    for record, frame in captured.steps:
        if frame and is_named:
            lines.append(f"# packet {frame.packet.number}, from {frame.source} on interface {frame.interface}")
        lines += lines_in_words(record) if has_words else [texts.record_line(record)]
    return "\n".join(lines) + "\n"
