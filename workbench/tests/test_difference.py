"""What differs between two tables: every field, or what is decided alone."""
import json
from dataclasses import fields

from conftest import CHOIR, ROOT
from srp import difference, layout

TEXT = ("stream soprano 0200000000010001\nbridge 8000000000000007\nports 3\non 3 domain 5 2 2 values 2\non 1 talker soprano\n"
        "on 3 listener soprano ready\ntime 100\n")


def lines(printed):
    return [line.split() for line in printed.splitlines()]


def test_what_is_registered_differs(srp, written):
    """A VLAN, a latency and the clock: nothing of it is decided otherwise."""
    first = written("first.txt", TEXT)
    other = TEXT.replace("talker soprano", "talker soprano vlan 7 latency 5").replace("time 100", "time 110")
    second = written("second.txt", other)
    found = lines(srp("diff", first, second, status=1))
    for line in (["bridge", "clock", "100", "110"], ["0200000000010001", "soprano", "settled_vlan", "2", "7"],
                 ["0200000000010001", "soprano", "port", "1", "talker_vlan", "2", "7"],
                 ["0200000000010001", "soprano", "port", "1", "talker_latency", "0", "5"],
                 ["0200000000010001", "soprano", "port", "1", "talker_first_latency", "0", "5"],
                 ["0200000000010001", "soprano", "port", "3", "latency_out", "0", "5"]):
        assert line in found
    assert srp("diff", first, second, "--decided") == "no difference\n"
    assert srp("diff", first, first) == "no difference\n"


def test_what_is_decided_alone(srp, written):
    first, second = written("first.txt", TEXT), written("second.txt", TEXT.replace("on 3 listener soprano ready\n", ""))
    found = lines(srp("diff", first, second, "--decided", status=1))
    assert [line[-3:] for line in found if line[:1] == ["0200000000010001"]] == [
        ["listener", "ready", "none"], ["entry", "forward", "filter"]]
    assert ["port", "3", "total_a", "17088000", "0"] in found
    whole = lines(srp("diff", first, second, status=1))
    assert ["0200000000010001", "soprano", "port", "3", "registered_listener", "ready", "none"] in whole


def test_a_domain_and_an_address(srp, written):
    text = "bridge 7\nports 1\nstart\n{}time 100\n"
    first = written("first.txt", text.format("on 1 domain 6 3 2\n"))
    second = written("second.txt", text.format("on 1 domain 6 4 2\nmmrp 1 mac 91e0f0000001\n"))
    found = lines(srp("diff", first, second, status=1))
    for line in ("port 1 Domain of class A, priority 3 registered yes no", "port 1 Domain of class A, priority 4 registered no yes",
                 "port 1 edge_a no yes", "port 1 address 91:e0:f0:00:00:01 registered yes"):
        assert line.split() in found


def test_a_stream_that_one_side_lacks(srp, written):
    first, second = written("first.txt", TEXT), written("second.txt", TEXT.replace("talker soprano\n", "talker 9\n"))
    found = lines(srp("diff", first, second, status=1))
    assert ["0000000000000009", "held", "yes"] in found
    assert ["0200000000010001", "soprano", "port", "1", "talker", "advertise", "none"] in found


def test_what_ports_have_said(srp, written):
    """The same calls, and in the second two writes, the last with a LeaveAll: nothing of it is decided otherwise."""
    text = TEXT.replace("on 3 domain", "start\non 3 domain")
    first = written("first.txt", f"{text}time 1000\n")
    second = written("second.txt", f"{text}write 3\ntime 1000\nwrite 1\n")
    found = json.loads(srp("diff", first, second, "--json", status=1))
    shown = [(one["name"], one["port"], one["part"], one["field"], one["first"], one["second"]) for one in found]
    for line in (("soprano", 3, "sends Talker Advertise", "applicant", "VP", "AA"),
                 ("soprano", 1, "sends Listener", "applicant", "VP", "AA"), ("soprano", 1, "", "talker_leaving", "no", "yes"),
                 ("", 3, "sends Domain of class A, priority 3", "applicant", "VP", "AA"),
                 ("", 1, "", "leave_all_due", "yes", "no")):
        assert line in shown
    assert srp("diff", first, second, "--decided") == "no difference\n"


def test_as_json(srp, written):
    first, second = written("first.txt", TEXT), written("second.txt", TEXT.replace("vlan", "").replace("ready", "asking"))
    found = json.loads(srp("diff", first, second, "--json", status=1))
    assert {"stream": "0200000000010001", "name": "soprano", "port": 3, "part": "", "field": "entry", "first": "forward",
            "second": "filter"} in found
    assert json.loads(srp("diff", first, first, "--json")) == []


def test_every_field_of_the_layout_is_compared(srp):
    """Each number of the layout has a name in a table that holds one of every part, but for bits that are zero by rule."""
    from srp import inputs

    table = inputs.run(inputs.load(str(ROOT / "examples/asked-for/hall.txt"))).table
    assert table.streams and any(edge.addresses for edge in table.edges)
    compared = len(list(difference.all_fields(table)))
    ports, streams = table.settings.ports, len(table.streams)

    def numbers(*parts):
        return sum(each.name != "zero" and "part" not in each.metadata for part in parts for each in fields(part))

    own = (numbers(layout.Port, layout.Totals, layout.Sender) + 2
           + 2 * layout.PRIORITIES * numbers(layout.Domain, layout.DomainSent))
    sent = numbers(layout.AdvertiseSent, layout.Parameters, layout.FailedSent, layout.Parameters, layout.ListenerSent)
    asked = sum(len(edge.addresses) for edge in table.edges[:ports]) * numbers(layout.Address)
    # the clock and, for each stream, that it is held
    of_a_stream = 1 + numbers(layout.Parameters) + ports * (numbers(layout.Cell, layout.Parameters, layout.Result) + sent)
    assert compared == numbers(layout.Settings) + 1 + ports * own + asked + streams * of_a_stream


def test_records_that_stop(srp, written):
    octets = written("records", bytes.fromhex("8000000000000007" "16803c" "0002" "00") + bytes(22) + b"\x2f")
    assert "the reading stops early" in srp("diff", CHOIR, octets, status=2)
