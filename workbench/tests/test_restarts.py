"""The order among ports never matters: seen over many orders, and seen to be noticed where it does."""
import json
import random
import shutil
import sys

import pytest
from conftest import CHOIR, ROOT, run

WRONG = {"SRP_CALLS": f"{sys.executable} {ROOT}/workbench/tests/first_come.py"}


def results_in(printed):
    """The lines of results; below them stands what they decide in another way."""
    return [line for line in printed.splitlines() if not line.startswith("    ")]


def test_choir_prints_one_line(srp):
    [line] = srp("restarts", 1000, CHOIR).splitlines()
    assert line.startswith("1000 of 1000 orders, first order 0: table ")
    assert "reserved port 4 A 68352000; 4 forward, 3 failed; refused none" in line


def test_first_come_first_served_prints_several(srp):
    lines = results_in(srp("restarts", 60, CHOIR, status=1, environment=WRONG))
    assert len(lines) > 1
    assert sum(int(line.split()[0]) for line in lines) == 60


def test_orders_keep_each_ports_own(srp):
    from srp import inputs, records
    from srp.orders import order

    given = inputs.load(str(ROOT / CHOIR))
    orders = [order(given.records, 0, number) for number in range(200)]
    fixed = [place for place, record in enumerate(given.records) if record.kind != records.RECEIVE]
    for places in orders:
        served = sorted((given.records[place].port, at) for at, place in enumerate(places) if place not in fixed)
        own = [(given.records[place].port, place) for _, at in served for place in [places[at]]]
        assert own == sorted(own)
        assert sorted(places) == list(range(len(given.records)))
        assert [places[place] for place in fixed] == fixed
    # 2520 orders of the first eight frames, two of each port, and 2 of each of the pairs behind
    assert 190 < len(set(map(tuple, orders)))
    first, again, other = ([order(given.records, seed, number) for number in range(9)] for seed in (0, 0, 1))
    assert first == again != other


def test_every_interleaving_is_as_likely():
    from srp import orders, records

    calls = [records.receive(port, b"") for port in (1, 1, 2)]
    found = [tuple(orders.interleaved([0, 1, 2], calls, random.Random(seed))) for seed in range(3000)]
    assert {order: 900 < found.count(order) < 1100 for order in set(found)} == {(0, 1, 2): True, (0, 2, 1): True, (2, 0, 1): True}


def test_mmrp_frames_are_served_among_the_others(srp, tmp_path):
    from srp import inputs
    from srp.orders import as_text, order

    text = ("bridge 8000000000000007 pruning\nports 2\nstart\non 1 talker 1\nmmrp 2 mac 91e0f0000001\non 2 domain 5 2 2 values 2\n"
            "time 1\n")
    given = inputs.of_text("asked.txt", text.encode())
    orders = {tuple(order(given.records, 0, number)) for number in range(60)}
    assert orders == {(0, 1, 2, 3, 4), (0, 2, 1, 3, 4), (0, 2, 3, 1, 4)}
    assert "mmrp 2 octets 000206000191e0f00000016c00000000" in as_text(given, 0, 1)
    path = tmp_path / "asked.txt"
    path.write_text(text)
    [line] = srp("restarts", 60, path).splitlines()
    assert "refused none" in line


def test_the_order_of_mmrp_frames_is_seen_to_matter(srp):
    """Only the MMRP frame can be served elsewhere: behind both Talkers, first come, first served has them of one age on port 2."""
    text = ("bridge 8000000000000007 pruning\nports 2 limits 20M 0\nstart\non 1 talker 2\non 1 talker 1\n"
            "mmrp 2 mac 91e0f0000001 values 2\ntime 100\non 2 listener 1 ready values 2 and domain 5 2 2 values 2\ntime 200\n")
    [line] = srp("restarts", 60, "-", given=text).splitlines()
    assert "reserved port 2 A 17088000; 1 forward, 1 failed; refused none" in line
    lines = results_in(srp("restarts", 60, "-", given=text, status=1, environment=WRONG))
    assert len(lines) == 2 and sum(int(line.split()[0]) for line in lines) == 60


def test_an_order_as_a_text_gives_the_same_sheet(srp, tmp_path):
    text = tmp_path / "order.txt"
    text.write_text(srp("restarts", 1000, CHOIR, "--order", 17))
    assert srp("sheet", text) == srp("sheet", CHOIR)


def test_jobs_and_shards_add_up(srp, tmp_path):
    whole = srp("restarts", 45, CHOIR, "--seed", 5, "--jobs", 1, status=1, environment=WRONG)
    assert whole == srp("restarts", 45, CHOIR, "--seed", 5, "--jobs", 3, status=1, environment=WRONG)
    parts = [tmp_path / f"part{shard}" for shard in (1, 2, 3)]
    for shard, part in enumerate(parts, 1):
        part.write_text(srp("restarts", 45, CHOIR, "--seed", 5, "--shard", f"{shard}/3", environment=WRONG))
    assert srp("restarts", "--merge", *parts, status=1) == whole
    assert "shard 2/3 is there 0 times" in srp("restarts", "--merge", parts[0], parts[2], status=2)
    assert "shard 1/3 is there 2 times" in srp("restarts", "--merge", *parts, parts[0], status=2)


def test_parts_of_two_sweeps_are_not_added(srp, tmp_path):
    first = srp("restarts", 4, CHOIR, "--shard", "1/2")
    second = srp("restarts", 4, CHOIR, "--seed", 1, "--shard", "2/2")
    assert "must be the same" in srp("restarts", "--merge", "-", status=2, given=first + second)


@pytest.mark.skipif(not shutil.which("parallel"), reason="GNU parallel is not installed")
def test_gnu_parallel():
    shards = f"parallel --will-cite -j 2 ./srp restarts 200 {CHOIR} --jobs 1 --shard {{}}/4 ::: 1 2 3 4"
    done = run("bash", "-c", f"{shards} | ./srp restarts --merge -")
    assert done.returncode == 0, done.stderr
    [line] = done.stdout.splitlines()
    assert line.startswith("200 of 200 orders")


def test_a_text_of_calls(srp, tmp_path):
    text = tmp_path / "calls.txt"
    text.write_text("bridge 8000000000000007\nports 3\nstart\non 1 talker 0200000000010001\non 2 talker 0200000000010002\n"
                    "on 3 listener 0200000000010001 ready values 2 and domain 5 2 2 values 2\n"
                    "time 100\nwrite 3\nreport 3 place 1\nsum\n")
    [line] = srp("restarts", 30, text).splitlines()
    assert "port 3 A 34176000" in line


def test_domain_frames_are_frames_like_others(srp, tmp_path):
    """Domain values joined, changed and left among other frames: whatever the order, the edge is the same."""
    text = tmp_path / "domain.txt"
    text.write_text("bridge 8000000000000007\nports 3\non 1 talker 0200000000010001\non 3 listener 0200000000010001 ready\n"
                    "on 2 domain 5 2 2 values 2\non 3 domain 6 3 9\non 3 domain 6 3 2\non 1 leaveall domain\ntime 100\n"
                    "on 2 leaveall domain\non 3 domain 6 4 2\non 2 domain 5 2 2\non 1 domain 6 3 2\ntime 200\n")
    [line] = srp("restarts", 60, text).splitlines()
    assert line.startswith("60 of 60 orders, first order 0: ") and "reserved nothing; 0 forward, 2 failed; refused none" in line
    order = tmp_path / "order.txt"
    order.write_text(srp("restarts", 60, text, "--order", 7))
    assert srp("diff", text, order) == "no difference\n" and srp("table", text) == srp("table", order)


def test_past_64_streams_the_premise_does_not_hold(both):
    """Two ports ask for 40 streams each. Who comes first finds room, and that the theorem says nothing of it is said."""
    text = "bridge 8000000000000007\nports 2\non 1 listener 1000 ready values 40\non 2 listener 2000 ready values 40\ntime 100\n"
    status, printed, said = both("restarts", 40, "-", given=text)
    assert status == 1 and "refused 1 with 8" in printed and "the theorem's premise does not hold: more than 64 streams" in said
    status, printed, _ = both("restarts", 40, "-", "--json", given=text)
    found = json.loads(printed)
    assert status == 1 and not found["premise_holds"] and [one["refused"] for one in found["results"]] == [{"8": 1}] * 2
    assert sum(one["count"] for one in found["results"]) == found["orders"] == 40
    status, printed, said = both("restarts", 10, CHOIR, "--json")
    assert (status, said) == (0, "") and json.loads(printed)["premise_holds"]


def test_inputs_that_cannot_be_restarted(srp):
    assert "begins with settings" in srp("restarts", 3, "examples/console/numbers.txt", status=2)
    assert "two numbers" in srp("restarts", 3, CHOIR, "--shard", "2", status=2)
