"""The same frames in many random orders. What comes of an order is the answer to each call and the table left, to the octet."""
import hashlib
import json
from collections import Counter
from concurrent.futures import ThreadPoolExecutor
from dataclasses import asdict, dataclass

from srp import answers, programs, records
from srp.faults import Fault
from srp.names import Names
from srp.orders import check, order
from srp.results import Result, added, result_of

# Orders that one run of srpcalls makes.
BATCH = 50


@dataclass(frozen=True)
class Sweep:
    """Which orders are made of which input: of those below `orders`, every so many-th."""
    input: str
    orders: int
    seed: int = 0
    shard: int = 1
    shards: int = 1

    @property
    def numbers(self):
        return range(self.shard - 1, self.orders, self.shards)

    @property
    def batches(self):
        """The numbers in parts, each for one run."""
        return [self.numbers[at:at + BATCH] for at in range(0, len(self.numbers), BATCH)]

    @property
    def whole(self):
        """What the parts of one sweep have in common."""
        return self.input, self.orders, self.seed, self.shards


def digest(given):
    """What an input is known by."""
    return hashlib.sha256(b"".join(record.octets for record in given.records)).hexdigest()


def batch(calls, seed, numbers, command=None):
    """The results of some orders, by one run of srpcalls."""
    orders, runs = [order(calls, seed, number) for number in numbers], []
    for places in orders:
        runs += [*(calls[place] for place in places), records.Record(records.TABLE_OCTETS)]
    lines = programs.calls(runs, command=command)
    size, results = len(calls) + 1, {}
    for index, (number, places) in enumerate(zip(numbers, orders)):
        *printed, table = lines[size * index:size * (index + 1)]
        # the answer of each call at the call's own place, whatever the order
        by_place = [line for _, line in sorted(zip(places, printed))]
        key = hashlib.sha256("\n".join([*by_place, table]).encode()).hexdigest()
        if key in results:
            results[key].count += 1
        else:
            results[key] = result_of(key, printed, answers.read_line(table).octets, number)
    return list(results.values())


def on_worker(shared, numbers, command):
    """A batch, on a worker of a cluster."""
    calls, seed = shared
    return batch(calls, seed, numbers, command)


def side_by_side(calls, sweep, parts, jobs):
    """The results of some batches of a sweep, each with its place, by so many runs side by side."""
    with ThreadPoolExecutor(jobs) as pool:
        try:
            yield from zip(parts, pool.map(lambda part: batch(calls, sweep.seed, sweep.batches[part]), parts))
        except BaseException:
            pool.shutdown(wait=False, cancel_futures=True)
            raise


def sweep_results(given, sweep, kept, make, tell):
    """The results of a sweep: those that are kept, and those that make gives of the batches left; tell is told how many orders are
    done."""
    check(given)
    tell(sum(one.count for one in kept.results))
    for place, results in make(given.records, sweep, list(kept.left)):
        kept.add(place, results)
        tell(sum(one.count for one in results))
    return added(kept.results)


def as_part(sweep, results, names):
    """A shard's results in one line of JSON, with the names of the input's streams."""
    return json.dumps({"sweep": asdict(sweep), "names": names.by_stream, "results": [asdict(result) for result in results]})


def read_part(line):
    try:
        part = json.loads(line)
        return Sweep(**part["sweep"]), [Result(**result) for result in part["results"]], Names(part["names"])
    except (ValueError, KeyError, TypeError):
        raise Fault(f"no part of a sweep: {line[:60].strip()}") from None


def merged(lines):
    """The sweep of all its parts, their results, and the names of the input's streams. Each part must be there once."""
    parts = [read_part(line) for line in lines if line.strip()]
    if len({sweep.whole for sweep, _, _ in parts}) != 1:
        raise Fault("the parts are of no sweep, or of several: input, orders, seed and number of shards must be the same")
    first, _, names = parts[0]
    seen = Counter(sweep.shard for sweep, _, _ in parts)
    wrong = [shard for shard in range(1, first.shards + 1) if seen[shard] != 1]
    if wrong:
        raise Fault("; ".join(f"shard {shard}/{first.shards} is there {seen[shard]} times" for shard in wrong))
    return first, added(one for _, results, _ in parts for one in results), names
