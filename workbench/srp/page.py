"""The sheet as a page that stands by itself: a bar for each port and class, and the streams with their codes in words."""
from dataclasses import dataclass
from itertools import groupby

from srp import pages, sheet
from srp.refusals import summed_up
from srp.views import Share, addresses, class_of, loads, ports, stream_line
from srp.words import LEAVING, address, cause, counted, edge, rate, seconds, stream_id

# A part of a bar that is narrower, in percent, has no room for a name.
NARROW = 12
# Shares of a port that are shown; more are folded, and so are that many addresses in a row.
UNFOLDED, RUN = 8, 3

# What a port's place in the streams' list says, by column and entry.
STATES = {
    ("advertise", "forward"): ("forward", "forwards"),
    ("advertise", "filter"): ("filter", "advertised"),
    ("failed", "filter"): ("failed", "refused"),
    ("none", "filter"): ("filter", "filters"),
}


@dataclass(frozen=True)
class Part:
    """A part of a bar: where it begins and how wide it is, in percent."""
    share: Share
    left: float
    wide: float
    shade: int

    @property
    def label(self):
        return "…" + self.share.stream[-4:] if self.wide >= NARROW else ""

    @property
    def middle(self):
        return self.left + self.wide / 2


@dataclass(frozen=True)
class Place:
    """What a port's place in the streams' list says, and what more is told of it."""
    kind: str
    word: str
    lines: list


def parts(load):
    """The parts of a class's bar, in order of importance from the left. The bar is as long as the limit, or as the total where class
    B borrows."""
    whole, left = max(load.limit, load.total, 1), 0
    for shade, share in enumerate(load.holders):
        wide = 100 * share.demand / whole
        yield Part(share, left, wide, min(shade, 7))
        left += wide


def reserved(load):
    """What is reserved, and the configured limit."""
    if not load.supported:
        return "not supported"
    if not load.total:
        return f"{rate(load.total)} of {rate(load.limit)}" if load.limit else "limit 0 bit/s"
    if load.total > load.limit:
        return f"{rate(load.total)}, limit {rate(load.limit)} and a part of class A's"
    return f"{rate(load.total)} of {rate(load.limit)}, {100 * load.total / load.limit:.0f} %"


def edge_note(load):
    """What is said of a class where the port is at its domain's edge, with what is registered there now."""
    declared = "; ".join(f"priority {value.priority}, VLAN {value.vlan}" for value in load.domains)
    return f"{edge(load.name)}; registered of it: {declared or 'nothing'}"


def runs(all_asked):
    """Addresses in a row, all leaving or none."""
    places = enumerate(all_asked)
    return [[asked for _, asked in group]
            for _, group in groupby(places, key=lambda place: (place[1].address - place[0], place[1].leaving_since is None))]


def run_note(run):
    """A run of addresses: each of a short one, the first and last of a longer one."""
    leaving = "" if run[0].leaving_since is None else " (leaving)"
    if len(run) < RUN:
        return ", ".join(address(asked.address) + leaving for asked in run)
    return f"{address(run[0].address)} to {address(run[-1].address)}, {len(run)} addresses{leaving}"


def asked_note(all_asked):
    """What is said of a port where Talkers are pruned: the addresses that were asked for there."""
    return f"asked for: {', '.join(map(run_note, runs(all_asked))) or 'nothing'}"


def has_unsent_lv(stream, port):
    """Whether a declaration of a stream is withdrawn on a port, and no write has said it."""
    sends = stream.sends[port - 1]
    return LEAVING in (sends.advertise.applicant, sends.failed.applicant, sends.listener.applicant)


def place_of(stream, port):
    """What is said of a stream on a port."""
    line, cell = stream_line(stream, port), stream.cells[port - 1]
    kind, word = STATES.get((line.column, line.entry), ("none", "–"))
    lines = [f"code {line.code}: {cause(line.code)}"] if line.code else []
    if cell.talker and line.column == "none":
        kind, word = "talker", "Talker"
    if line.listener != "none":
        lines.append(f"Listener {line.listener}")
    if cell.talker_leaving or cell.listener_leaving:
        lines.append("leaving")
    if has_unsent_lv(stream, port):
        lines.append("Lv not sent yet")
    return Place(kind, word, lines)


def stream_row(stream, table, names):
    """A row of the streams' list."""
    asked = stream.settled
    return {
        "id": stream_id(stream.stream_id),
        "name": names.of(stream_id(stream.stream_id)),
        "class": class_of(table, asked) or "–",
        "rank": asked.rank,
        "asked": f"{asked.max_interval_frames} × {asked.max_frame_size} octets, priority {asked.priority}",
        "destination": f"{address(asked.destination)}, VLAN {asked.vlan}",
        "places": [place_of(stream, port) for port in ports(table)],
    }


def view(ran, key):
    """What the page shows of an input; key is what its places are known by."""
    table, names = ran.table, ran.input.names
    by_port = [[load for load in loads(table) if load.port == port] for port in ports(table)]
    return {
        "name": ran.input.name,
        "key": key,
        "names": names,
        "unfolded": UNFOLDED,
        "frames": counted(sum(record.is_frame for record in ran.input.records), "frame"),
        "bridge": stream_id(table.settings.bridge_id),
        "clock": seconds(table.clock),
        "leave": seconds(table.settings.leave_time),
        "held": table.held,
        "ports": by_port,
        "pruning": bool(table.settings.pruning),
        "asked": addresses(table),
        "numbers": list(ports(table)),
        "streams": [stream_row(stream, table, names) for stream in table.streams],
        "notes": ran.input.notes,
        "refused": list(summed_up(ran.refusals)),
        "reason": ran.reason,
        "sheet": "\n".join(sheet.plain(ran)),
    }


def page(all_ran):
    """The page of some inputs."""
    filters = {"rate": rate, "parts": parts, "reserved": reserved, "edge_note": edge_note, "asked_note": asked_note}
    return pages.made("page.html", filters, inputs=[view(ran, f"input{place}") for place, ran in enumerate(all_ran, 1)])
