"""Results of restarts: what an order came to, results added up, and how they are shown."""
import zlib
from collections import Counter
from dataclasses import asdict, dataclass

from srp import layout
from srp.names import NONE
from srp.views import FAILED, holds, port_lines, stream_lines

# The number of a frame that finds no room for its streams.
NO_ROOM = 8


@dataclass
class Result:
    """A result: its key, its line, how many orders came to it, the first of them, how many calls were refused with each number, and
    what is decided of each stream on each port that has a column."""
    key: str
    line: str
    count: int
    first: int
    refused: dict
    decided: list


def decided_of(table):
    """What is decided of each stream on each port that has a column: StreamID, port, column, code and entry."""
    return [[line.stream, line.port, line.column, line.code, line.entry] for line in stream_lines(table) if line.column != "none"]


def refused_of(printed):
    """How many calls were refused with each number."""
    numbers = Counter(line.split()[1] for line in printed if line.split()[0] in ("start", "receive", "mmrp", "advance"))
    return {number: count for number, count in sorted(numbers.items()) if number != "0"}


def in_words(octets, table, refused):
    """A result in one line: the table's sum as srpcalls prints it, what is reserved, and how many streams go where."""
    results = [result for stream in table.streams for result in stream.results]
    reserved = [f"port {line.port} {name} {total}" for line in port_lines(table)
                for name, total in (("A", line.total_a), ("B", line.total_b)) if total]
    numbers = ", ".join(f"{count} with {number}" for number, count in refused.items())
    return (f"table {zlib.adler32(octets):08x}, reserved {', '.join(reserved) or 'nothing'}; {sum(map(holds, results))} forward,"
            f" {sum(result.column == FAILED for result in results)} failed; refused {numbers or 'none'}")


def result_of(key, printed, octets, number):
    """The result of an order."""
    table, refused = layout.read_table(octets), refused_of(printed)
    return Result(key, in_words(octets, table, refused), 1, number, refused, decided_of(table))


def added(found):
    """The results of several lists of them."""
    results = {}
    for one in found:
        held = results.setdefault(one.key, Result(**asdict(one) | {"count": 0}))
        held.count += one.count
        held.first = min(held.first, one.first)
    return list(results.values())


def by_frequency(results):
    return sorted(results, key=lambda result: (-result.count, result.first))


def differing(first, other, names):
    """Where the decisions of two results differ: a line for each stream and port."""
    left, right = ({(stream, port): f"{column} {code} {entry}" for stream, port, column, code, entry in one.decided}
                   for one in (first, other))
    for stream, port in sorted(left | right):
        before, after = (side.get((stream, port), "none") for side in (left, right))
        if before != after:
            yield f"    {names.beside(stream)} port {port}: {after}, and in the first line {before}"


def lines_of(sweep, results, names=NONE):
    """A line for each result, the most frequent first; below the others what they decide in another way than the first."""
    width = len(str(sweep.orders))
    first, *others = by_frequency(results)
    for result in (first, *others):
        yield f"{result.count:{width}} of {sweep.orders} orders, first order {result.first}: {result.line}"
        yield from differing(first, result, names)


def holds_premise(results):
    """Whether the streams held and asked for are at most 64, which the theorem asks for: past that, whatever the order, some frame
    finds no room."""
    return not any(str(NO_ROOM) in result.refused for result in results)


def as_object(sweep, results, names=NONE):
    """A sweep's results as JSON has them."""
    fields = ("stream", "port", "column", "code", "entry")
    shown = [{"count": result.count, "first_order": result.first, "line": result.line, "refused": result.refused,
              "decided": [dict(zip(fields, one)) | {"name": names.of(one[0])} for one in result.decided]}
             for result in by_frequency(results)]
    return {"input": sweep.input, "orders": sweep.orders, "seed": sweep.seed, "premise_holds": holds_premise(results),
            "results": shown}
