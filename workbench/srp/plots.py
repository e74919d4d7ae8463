"""What classes reserve on ports over time, as parts of a page: steps, stacked by stream."""
from dataclasses import dataclass
from itertools import groupby

from srp.views import of_class
from srp.words import CLASSES, rate, seconds

WIDE, HIGH = 760, 150
# Colours of streams go round the circle by this angle, so that neighbours are told apart.
ANGLE = 137


@dataclass(frozen=True)
class Layer:
    """A stream's part of a plot."""
    stream: str
    name: str
    path: str
    colour: str


@dataclass(frozen=True)
class Plot:
    """A class on a port over time."""
    port: int
    name: str
    layers: list
    limit: float
    most: str
    limit_words: str
    first: str
    last: str


def holdings(one, port, name):
    """The demands of those who reserve of a class on a port, by stream."""
    return {line.stream: line.demand for line in one.streams
            if line.port == port and line.class_name == name and line.column == "advertise" and line.entry == "forward"}


def steps(found, port, name):
    """The times at which the holdings of a class on a port change, with the holdings from then on."""
    held = ((one.time, holdings(one, port, name)) for one in found)
    return [next(group) for _, group in groupby(held, key=lambda step: step[1])]


def stacked(held, order):
    """Where each stream's part begins and ends, one upon the other."""
    edges, at = {}, 0
    for stream in order:
        edges[stream] = at, at + held.get(stream, 0)
        at += held.get(stream, 0)
    return edges


def path_of(stream, edges, times, x, y):
    """The outline of a stream's part: its upper edge forwards, its lower one back."""
    spans = list(zip(times, [*times[1:], times[-1]], edges))
    upper = [f"{x(time):.1f},{y(edge[stream][1]):.1f}" for begin, end, edge in spans for time in (begin, end)]
    lower = [f"{x(time):.1f},{y(edge[stream][0]):.1f}" for begin, end, edge in reversed(spans) for time in (end, begin)]
    return "M" + " L".join(upper + lower) + " Z"


def span(found):
    """The first time of a plot and its last, which is some way behind the last advance, so that this is seen too."""
    first, last = found[0].time, found[-1].time
    return first, last + max(1, (last - first) // 16)


def plot_of(found, port, name, names, colours):
    """The plot of a class on a port; none where nothing is ever reserved."""
    changed = steps(found, port, name)
    order = sorted({stream for _, held in changed for stream in held})
    if not order:
        return None
    first, last = span(found)
    [line] = [line for line in found[-1].ports if line.port == port]
    limit = of_class(line, "limit_", name)
    most = max([limit, *(sum(held.values()) for _, held in changed)])
    times = [*(time for time, _ in changed), last]
    edges = [stacked(held, order) for _, held in changed]
    edges.append(edges[-1])

    def x(time):
        return WIDE * (time - first) / (last - first)

    def y(total):
        return HIGH * (1 - total / most)

    layers = [Layer(stream, names.get(stream, ""), path_of(stream, edges, times, x, y), colours[stream]) for stream in order]
    return Plot(port, name, layers, y(limit), rate(most), rate(limit), seconds(first), seconds(last))


def plots(found):
    """The plots of an input's moments."""
    if not found:
        return []
    names = {line.stream: line.name for one in found for line in one.streams}
    holding = sorted({line.stream for one in found for line in one.streams if line.entry == "forward"})
    colours = {stream: f"hsl({place * ANGLE % 360} 55% {45 + place % 3 * 8}%)" for place, stream in enumerate(holding)}
    made = (plot_of(found, line.port, name, names, colours) for line in found[-1].ports for name in CLASSES)
    return [plot for plot in made if plot]
