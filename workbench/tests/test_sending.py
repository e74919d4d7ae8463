"""What ports have said and have still to say: in the table, on the page, in captures and in words."""
import re

import pytest
from conftest import run
from made import complaints, needs_tshark

HEAD = "stream soprano 0200000000010001\nbridge 8000000000000007\nports 2\n"
HEARD = "on 1 domain 5 2 2 values 2\non 2 domain 5 2 2 values 2\n"
JOINED = f"{HEAD}start\n{HEARD}on 1 talker soprano latency 9\non 2 listener soprano ready\ntime 100\n"
SAID = "write 1\nwrite 2\n"
WITHDRAWN = f"{JOINED}{SAID}{SAID}on 1 talker soprano leave\ntime 160\n"
# The Listener's registration ends too, so that an unsent Lv alone holds the stream.
UNSENT = WITHDRAWN.replace("time 160", "on 2 listener soprano ready leave\ntime 160")


@pytest.mark.parametrize("more, said", [
    ("", "VP (to say: Join, twice)"), (SAID, "AA (to say: Join, once more)"), (2 * SAID, "QA (to say: nothing)"),
    (2 * SAID + "on 1 talker soprano latency 5\ntime 200\n", "VN (to say: New, twice)"),
    (2 * SAID + "on 1 talker soprano latency 5\ntime 200\nwrite 2\n", "AN (to say: New, once more)"),
    (2 * SAID + "on 2 leaveall advertise\n", "VP (to say: Join, twice)"),
])
def test_each_machine_in_words(srp, written, more, said):
    latency = "5 ns" if "latency" in more else "9 ns"
    printed = " ".join(srp("table", written("hall.txt", JOINED + more)).split())
    assert f"port 2: Talker Advertise {said} to 91:e0:f0:00:00:01 VLAN 2" in printed
    assert f"rank 1, latency out {latency}" in printed


def test_domain_values_and_leave_all_in_words(srp, written):
    printed = srp("table", written("hall.txt", f"{JOINED}write 1\n"))
    assert "  port 1: Domain of class A, priority 3: AA (to say: Join, once more)\n" in printed
    assert "  port 2: Domain of class B, priority 2: VP (to say: Join, twice)\n" in printed
    assert "  port 1: LeaveAll isn't due; the next counts since 0.00 s, due from 10.00 s on\n" in printed
    printed = srp("table", written("hall.txt", f"{JOINED}time 1005\nwrite 1\n"))
    assert "  port 1: LeaveAll isn't due; the next counts since 10.05 s, due from 20.05 s on\n" in printed
    assert "  port 2: LeaveAll is due, and goes out with the port's next write; the next counts since 10.05 s" in printed


def test_a_failed_talker_in_words(srp, written):
    """Two machines of one stream on a port: the Advertise is withdrawn, the Failed is new."""
    printed = " ".join(srp("table", written("hall.txt", f"{JOINED}{SAID}on 1 talker soprano vlan 9\ntime 200\n")).split())
    assert "port 2: Talker Advertise LA (to say: Lv, once: it is withdrawn) to 91:e0:f0:00:00:01 VLAN 2" in printed
    assert "port 2: Talker Failed VP (to say: Join, twice)" in printed
    assert "code 16 (changes in FirstValue for a registered StreamID) of bridge 8000000000000007" in printed


def test_a_stream_with_an_unsent_lv(srp, written):
    printed = srp("table", written("hall.txt", UNSENT))
    assert "1 streams held" in printed and "nothing is registered: it is held until its Lv is sent" in printed
    assert "port 1: Listener Ready LA (to say: Lv, once: it is withdrawn)" in printed
    page = srp("sheet", "--html", written("hall.txt", UNSENT))
    assert page.count("Lv not sent yet") == 2
    sent = written("sent.txt", UNSENT + SAID)
    assert "0 streams held" in srp("table", sent) and "Lv not sent yet" not in srp("sheet", "--html", sent)


def events_shown(capture, source):
    """The events that tshark shows of each packet from an address, and of its vectors whether each has a LeaveAll."""
    shown = run("tshark", "-r", capture, "-Y", f"eth.src == {source}", "-V").stdout.split("\nFrame ")
    return [(re.findall(r"Attribute Event: (\w+)", packet), re.findall(r"= Leave All Event: ([\w ]+) \(", packet))
            for packet in shown]


@needs_tshark
def test_writes_of_the_input_are_read_by_tshark(srp, both, written, tmp_path):
    """Joins, New, Lv, and a LeaveAll with In and Mt: an input that writes by itself is captured as it does."""
    text = (f"{JOINED}{2 * SAID}on 1 talker soprano latency 5\ntime 140\nwrite 2\nwrite 2\nwrite 2\n"
            "on 1 talker soprano leave\ntime 200\nwrite 2\non 1 talker 0200000000010003\ntime 1000\nwrite 2\nwrite 2\n")
    capture = tmp_path / "hall.pcapng"
    status, _, said = both("capture", written("hall.txt", text), "-o", capture)
    assert (status, said) == (0, "")
    faults, protocols = complaints(capture)
    assert (faults, set(protocols)) == ("", {"MRP-MSRP"})
    none = "Null"
    assert events_shown(capture, "02:00:00:00:00:02") == [
        (["JoinMt", "JoinIn", "JoinIn"], [none] * 3), (["JoinMt", "JoinIn", "JoinIn"], [none] * 3),
        (["New"], [none]), (["New"], [none]), (["JoinMt"], [none]), (["Lv"], [none]),
        (["Mt", "JoinIn", "JoinIn"], ["Leave All"] * 4 + [none]), (["JoinMt"], [none])]


@needs_tshark
def test_passes_of_a_long_input(srp, both, written, tmp_path):
    """After each advance each port says what it has to say, then nothing; LeaveAll is warned of, since the input answers none."""
    capture = tmp_path / "long.pcap"
    text = f"{HEAD}{HEARD}on 1 talker soprano\non 2 listener soprano ready\n" + "".join(
        f"time {time}\n" for time in (100, 200, 300, 400, 1000, 1100, 1200))
    status, _, said = both("capture", written("long.txt", text), "-o", capture)
    assert status == 0 and complaints(capture)[0] == ""
    assert "warning" in said and "ports send LeaveAll, 2 frames, the first by port 1 at 10.00 s" in said
    printed = srp("capture", capture, "--words").splitlines()
    times = [line for line in printed if line.startswith(("time", "on"))]
    assert [line.split()[1] for line in times] == ["100", "1", "2", "200", "1", "2", "1000", "1", "2", "1100", "1", "2", "1100"]
    # what was not joined again within the leave time is withdrawn
    assert printed[-3:-1] == ["on 1 listener 0200000000010001 ready leave", "on 2 talker 0200000000010001 leave"]
    both("capture", written("long.txt", text), "--received", "-o", capture)
    assert "LeaveAll" not in both("capture", written("long.txt", text), "--received", "-o", capture)[2]


def test_words_where_the_text_format_has_none(srp, written, tmp_path):
    """Comments say what several vectors, unlike events or a LeaveAll with values say; the frame stays as it is."""
    capture = tmp_path / "hall.pcap"
    srp("capture", written("hall.txt", f"{JOINED}time 1000\nwrite 2\nwrite 2\n"), "-o", capture)
    printed = srp("capture", capture, "--words")
    told = ["#   leaveall advertise", "#   talker 0200000000010001 latency 9 mt", "#   leaveall failed", "#   leaveall listener",
            "#   leaveall domain", "#   domain 5 2 2 in", "#   domain 6 3 2 in"]
    assert "\n".join(told) + "\non 2 octets 0001" in printed
    assert "#   talker 0200000000010001 latency 9 join\n#   domain 5 2 2 join\n#   domain 6 3 2 join\non 2 octets" in printed
    assert [line for line in printed.splitlines() if not line.startswith("#")] == srp("capture", capture).splitlines()


@pytest.mark.parametrize("pdu, told", [
    ("00" "0308" "000f" "0004" "0200000000010001" "b46c" "9c" "0000" "0000",
     ["listener 0200000000010001 ready leave", "listener 0200000000010002 asking new", "listener 0200000000010003 readyfailed new"]),
    ("00" "0119" "001e" "2002" "0200000000010001" "91e0f0000001" "0002" "00e0" "0001" "70" "00000000" "60" "0000" "0000",
     ["leaveall advertise", "talker 0200000000010001 in", "talker 0200000000010002 mt"]),
    ("00", []), ("000000", []), ("0003", []), ("000308000e0001", []), ("01" "0308", []), ("00" "0905" "0002" "0000" "0000", []),
])
def test_what_a_frame_says(pdu, told):
    from srp import protocols, sayings

    assert sayings.said_by(protocols.MSRP, bytes.fromhex(pdu)) == told
