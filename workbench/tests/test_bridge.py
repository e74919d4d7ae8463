"""A bridge as an object, and the example of docs/WORKBENCH.md."""
import os
import re
import subprocess
import sys

import pytest
from conftest import CHOIR, ROOT, run

SETTINGS = "bridge 8000000000000007\nports 2"
TALKER = "on 1 talker 0200000000010001"
LISTENER = "on 2 listener 0200000000010001 ready"
# What a port declares of the domain: class B (5) with priority 2, then class A (6) with priority 3, VLAN 2.
DOMAIN = bytes.fromhex("00 04 04 0010 0001 05020002 6c 0001 06030002 6c 0000 0000")


def test_calls_one_by_one():
    import srp

    with srp.Bridge(SETTINGS) as bridge:
        bridge.hear_domain()
        assert [answer.number for answer in bridge.feed(f"{TALKER}\n{LISTENER}")] == [0, 0]
        assert bridge.report(2).column == "none"
        assert bridge.advance(100) == srp.Answer("advance", 0)
        report = bridge.report(2)
        assert (report.stream, report.column) == ("0200000000010001", "advertise")
        assert (report.entry, report.total_a) == ("forward", 17088000)
        assert [one.stream for one in bridge.reports(2)] == ["0200000000010001"]
        [pdu] = bridge.declarations(2)
        assert pdu == bridge.write(2).pdu
        # its Talker and two Domain values
        assert bridge.write(2, place=3).pdu == bytes(3)
        assert bridge.table().totals[1].a == 17088000
        assert re.fullmatch("[0-9a-f]{8}", bridge.sum())


def test_why():
    import srp

    with srp.Bridge("bridge 8000000000000007\nports 2 limits 20M 0") as bridge:
        bridge.hear_domain()
        bridge.feed("on 1 talker 0200000000010001 values 2\non 2 listener 0200000000010001 ready values 2")
        first, second = (bridge.why(2, f"020000000001000{n}") for n in (1, 2))
        assert (first.step, first.words, first.listed) == ("i", "admitted", ())
        assert (second.step, second.words) == ("h", "insufficient bandwidth")
        assert second.listed == (srp.Listed("0200000000010001", 17088000),)
        assert (second.count, second.limit, second.shortfall, second.kept) == (1, 20000000, 14176000, True)
        # as an advance then decides
        bridge.advance(100)
        assert [one.code for one in bridge.reports(2)] == [0, 1]
        assert bridge.why(2, 0x0200000000010002) == second
        refused = [bridge.why(2, "02:00:00:00:00:01:00:03"), bridge.why(2, "0200000000010001", buffer=1007)]
        assert [(one.number, one.why, one.step, one.words) for one in refused] == [
            (15, "no such stream", "none", ""), (10, "the output buffer is too short", "none", "")]


def test_lines_of_why():
    from srp.answers import Listed, Reason, read_line

    assert read_line("why 15 none 0 0 0 kept\n") == Reason("why", 15, "none", 0, 0, 0, True, ())
    assert read_line("why 0 h 1 5 2 kept 0200000000010001000000000104be00\n") == Reason(
        "why", 0, "h", 1, 5, 2, True, (Listed("0200000000010001", 17088000),))


def test_declarations_are_read_by_another_bridge():
    import srp

    with srp.Bridge(SETTINGS) as first, srp.Bridge(SETTINGS) as second:
        idle = second.declarations(1)
        # each is a neighbour in the other's domain: from start on, Domain values are declared
        for pdu in idle:
            assert first.receive(2, pdu).accepted
        first.feed(f"{TALKER}\n{LISTENER}\ntime 100")
        for pdu in first.declarations(2):
            assert second.receive(1, pdu).accepted
        second.hear_domain(2)
        second.advance(100)
        assert second.report(2).column == "advertise"
        assert idle == [DOMAIN]
        # what the neighbour has declared is joined with JoinIn
        assert second.declarations(1) == [DOMAIN.replace(b"\x6c", b"\x24")]


def test_a_look_leaves_the_bridge_as_it_is():
    import srp

    with srp.Bridge(SETTINGS) as bridge:
        bridge.hear_domain()
        bridge.feed(f"{TALKER}\n{LISTENER}\ntime 100")
        before, looks = bridge.sum(), [bridge.declarations(port) for port in (1, 2)]
        assert [bridge.declarations(port) for port in (1, 2)] == looks and all(looks)
        assert bridge.sum() == before
        with bridge.kept():
            bridge.feed("lend 100\nreport 1")
            assert not bridge.advance(200).accepted
        with bridge.kept():
            bridge.advance(1000)
            assert bridge.said(1) != looks[0] and bridge.sum() != before
        assert bridge.sum() == before
        with pytest.raises(ZeroDivisionError), bridge.kept():
            bridge.advance(200)
            bridge.write(2)
            raise ZeroDivisionError
        assert bridge.sum() == before and bridge.said(2) == looks[1]
        assert bridge.sum() != before and [bridge.declarations(port) for port in (1, 2)] == looks


def test_a_pass_goes_on_where_the_place_stays():
    """64 Lvs take two PDUs. The first gives back place 0, since what it has withdrawn is gone; with the last the streams are."""
    import srp

    with srp.Bridge(SETTINGS) as bridge:
        bridge.hear_domain()
        bridge.feed("on 1 talker 0200000000010001 values 64\ntime 100")
        assert len(bridge.said(2)) == 2
        bridge.feed("on 1 leaveall advertise\ntime 160")
        with bridge.kept():
            assert (bridge.write(2).next, bridge.report(2).count) == (0, 11)
        looked = bridge.declarations(2)
        assert bridge.report(2).count == 64 and looked == bridge.said(2) and len(looked) == 2
        assert bridge.report(2).count == 0


def test_what_a_port_says_until_it_is_quiet():
    """Two Joins; an Lv for what is withdrawn; LeaveAll at 10 s. A refused write says nothing."""
    import srp

    with srp.Bridge(SETTINGS) as bridge:
        bridge.hear_domain()
        bridge.feed(f"{TALKER}\n{LISTENER}\ntime 100")
        assert [len(bridge.said(2)) for _ in range(3)] == [1, 1, 0]
        bridge.feed(f"{TALKER} leave\ntime 160")
        # the declaration is gone, and two Domain values are left
        [answer, after] = [bridge.write(2, 0) for _ in range(2)]
        assert (answer.next, answer.has_said, answer.pdu[32] // 36) == (2, True, 5)
        assert (after.length, after.has_said, bridge.said(2)) == (3, False, [])
        assert bridge.table().senders[1] == srp.Sender(*[tuple(map(srp.DomainSent, each)) for each in (
            [0, 0, 5, 0, 0, 0, 0, 0], [0, 0, 0, 5, 0, 0, 0, 0])], 0, 0)
        bridge.advance(1000)
        assert (bridge.table().senders[1].leave_all, bridge.table().senders[1].leave_all_since) == (1, 1000)
        [pdu] = bridge.said(2)
        assert pdu[5:7] == b"\x20\0" and bridge.table().senders[1].leave_all == 0
        assert bridge.said(9) == []


def test_the_edge_of_the_domain():
    import srp

    with srp.Bridge("bridge 8000000000000007 priorities 5 1 vlan 70\nports 3") as bridge:
        assert [answer.number for answer in bridge.hear_domain(1, 2)] == [0, 0]
        bridge.feed("on 1 talker 0200000000010001 priority 5\non 3 listener 0200000000010001 ready")
        assert not any(load.at_edge for load in srp.loads(bridge.table()))
        bridge.advance(100)
        edges = bridge.table().edges
        assert [(edge.boundary_a, edge.boundary_b) for edge in edges[:3]] == [(0, 0), (0, 0), (1, 1)]
        assert edges[0] == edges[1] and edges[1].domains_a[5] == edges[1].domains_b[1] == srp.Domain(1, 0, 0, 70)
        assert [(one.column, one.code) for port in (2, 3) for one in bridge.reports(port)] == [("advertise", 0), ("failed", 8)]
        assert bridge.hear_domain() == [srp.Answer("receive", 0)] * 3
        bridge.advance(200)
        assert bridge.report(3).entry == "forward"
        [load] = [load for load in srp.loads(bridge.table()) if (load.port, load.name) == (3, "A")]
        assert load.domains == [srp.DomainValue(5, 70, None)] and not load.at_edge


def test_addresses_and_pruning():
    import srp

    with srp.Bridge("bridge 8000000000000007 pruning\nports 2") as bridge:
        bridge.hear_domain()
        bridge.feed(f"{TALKER}\n{LISTENER}\ntime 100")
        assert (bridge.report(2).column, bridge.report(2).entry) == ("none", "filter")
        pruned = bridge.why(2, "0200000000010001")
        assert (pruned.step, pruned.words) == ("n", "pruning is on, and the port doesn't hold the stream's destination")
        assert bridge.receive_mmrp(2, bytes.fromhex("00 02 06 0001 91e0f0000001 6c 0000 0000")) == srp.Answer("mmrp", 0)
        assert bridge.feed("mmrp 1 mac 000000000000 values 65")[0].why == "no room for another address"
        bridge.advance(200)
        assert (bridge.report(2).column, bridge.report(2).entry) == ("advertise", "forward")
        assert bridge.why(2, "0200000000010001").step == "i"
        table = bridge.table()
        assert table.settings.pruning == 1 and table.edges[1].addresses == (srp.Address(1, 0, 0, 0x91E0F0000001),)
        bridge.feed("mmrp 2 mac 91e0f0000001 leave and mac 000000000000")
        assert srp.addresses(bridge.table()) == {1: [], 2: [srp.AskedFor(0, None), srp.AskedFor(0x91E0F0000001, 200)]}


def test_refusals_are_answers():
    import srp

    with srp.Bridge(SETTINGS) as bridge:
        assert (bridge.receive(9, b"\0").number, bridge.receive(9, b"\0").why) == (1, "no such port")
        assert bridge.receive(1, b"").number == 2
        bridge.advance(5)
        assert bridge.advance(4).number == 9
        assert bridge.write(1, buffer=1499).number == 10
        assert bridge.report(1, 1).number == 13
        assert bridge.start(b"").number == 11
        with pytest.raises(srp.Fault):
            bridge.receive(16, b"\0")
    with pytest.raises(srp.Fault, match="ended"):
        bridge.advance(6)
    with pytest.raises(srp.Fault, match="refused with 11"):
        srp.Bridge("bridge 8000000000000007\nports 9")
    with pytest.raises(srp.Fault, match="refused with 11"):
        srp.Bridge("bridge 8000000000000007 vlan 4095\nports 2")


@pytest.mark.parametrize("call, said", [
    (lambda bridge: bridge.advance(-1), "time is -1, where 0 to 4294967295 is expected"),
    (lambda bridge: bridge.advance(1 << 32), "time is 4294967296, where 0 to 4294967295"),
    (lambda bridge: bridge.advance("soon"), "time is 'soon', where a whole number is expected"),
    (lambda bridge: bridge.receive(16, b""), "port is 16, where 0 to 15 is expected"),
    (lambda bridge: bridge.receive(1.0, b""), "port is 1.0, where a whole number is expected"),
    (lambda bridge: bridge.receive(1, "00"), "pdu is '00', where octets"),
    (lambda bridge: bridge.receive_mmrp(1, None), "pdu is None, where octets"),
    (lambda bridge: bridge.receive(1, bytes(65536)), "pdu has 65536 octets, where at most 65535"),
    (lambda bridge: bridge.write(1, place=-1), "place is -1"),
    (lambda bridge: bridge.write(1, buffer=70000), "buffer is 70000"),
    (lambda bridge: bridge.report("x"), "port is 'x'"),
    (lambda bridge: bridge.why(1, "nobody"), "stream nobody: a name, 16 hexadecimal digits or at most 8"),
    (lambda bridge: bridge.why(1, 1 << 64), "stream is 18446744073709551616"),
    (lambda bridge: bridge.why(1, None), "stream is None"),
    (lambda bridge: bridge.start(7), "settings is 7, where octets"),
    (lambda bridge: bridge.feed(b"time 1"), "text is b'time 1', where a text"),
    (lambda bridge: bridge.hear_domain("one"), "port is 'one'"),
    (lambda bridge: bridge.feed("time 1\nbridge 7\nports 2"), "line 2: bridge: settings are handed to start"),
    (lambda bridge: bridge.feed("ports 2"), "line 1: ports: settings are handed to start"),
    (lambda bridge: bridge.feed("raw 20"), "line 1: raw: octets that may be no whole record"),
])
def test_a_wrong_argument_is_a_fault_with_its_name(shared, call, said):
    import srp

    with pytest.raises(srp.Fault) as fault:
        call(shared)
    assert said in str(fault.value)
    # and the bridge goes on
    assert shared.report(1).accepted


@pytest.fixture(scope="module")
def shared():
    """One bridge for the tests that change nothing of it."""
    import srp

    with srp.Bridge(SETTINGS) as bridge:
        yield bridge


def test_names_stay():
    """Those of settings and of texts that were fed; a fault names the line of the text that has it."""
    import srp

    with srp.Bridge(f"stream soprano 0200000000010001\n{SETTINGS}") as bridge:
        bridge.hear_domain()
        bridge.feed("address hall 91e0f000fe00\nstream alto 0200000000010002\non 1 talker soprano")
        bridge.feed("on 1 talker alto to hall\non 2 listener soprano ready\non 2 listener alto ready\ntime 100")
        assert [bridge.why(2, name).step for name in ("soprano", "alto")] == ["i", "i"]
        assert bridge.table().streams[1].settled.destination == 0x91E0F000FE00
        with pytest.raises(srp.Fault, match="line 2: tenor where a StreamID"):
            bridge.feed("time 200\non 1 talker tenor")
        with pytest.raises(srp.Fault, match="line 1: alto names a stream already"):
            bridge.feed("stream alto 3")


def test_settings_that_are_refused_name_the_rule():
    import srp

    with pytest.raises(srp.Fault, match="refused with 11: a bridge has 1 to 8 ports, and these settings say 9"):
        srp.Bridge("bridge 8000000000000007\nports 9")


def test_an_input_as_an_object():
    import srp

    ran = srp.run(srp.load(str(ROOT / CHOIR)))
    assert ran.refused == [] and ran.table.held == 7 and ran.table.totals[3].a == 68352000


def test_the_example_of_the_page(tmp_path):
    [example] = re.findall(r"```python\n(.*?)```", (ROOT / "docs/WORKBENCH.md").read_text(), re.DOTALL)
    done = subprocess.run([sys.executable, "-c", example], cwd=tmp_path, capture_output=True, text=True, check=False,
                          env=os.environ | {"PYTHONPATH": str(ROOT / "workbench"), "MPLBACKEND": "Agg",
                                            "MPLCONFIGDIR": str(tmp_path)})
    assert done.returncode == 0, done.stderr
    assert (tmp_path / "reserved.png").read_bytes().startswith(b"\x89PNG")


def test_a_missing_package_is_named(tmp_path):
    """Each package hidden in turn: the command names it and what installs it, and what needs none of it still runs."""
    from srp.needs import DEBIAN

    uses = {"click": ["sheet", CHOIR], "rich": ["table", CHOIR], "jinja2": ["sheet", "--html", CHOIR],
            "dpkt": ["capture", CHOIR, "-o", str(tmp_path / "out.pcap")]}
    for package, words in uses.items():
        hidden = tmp_path / package
        hidden.mkdir()
        (hidden / "sitecustomize.py").write_text(f"import sys\nsys.modules[{package!r}] = None\n")
        done = run("./srp", *words, environment={"PYTHONPATH": str(hidden)})
        assert done.returncode == 2 and f"apt-get install {DEBIAN[package]}" in done.stderr
        if package != "click":
            assert run("./srp", "sheet", CHOIR, environment={"PYTHONPATH": str(hidden)}).returncode == 0
