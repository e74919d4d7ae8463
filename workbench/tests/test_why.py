"""Why a stream has its column on a port, in words: every step, from texts and captures."""
import json

import pytest
from conftest import ROOT

HALL = "examples/why-refused/hall.txt"
HEAD = "bridge 8000000000000007 {}\nports 3 {}\nstart\non 2 domain 5 2 2 values 2\non 3 domain 5 2 2 values 2\n"
TALKER, LISTENER = "on 1 talker 1\n", "on 2 listener 1 ready\n"

# By step: words of the bridge's line, of its ports', the calls, the port asked about, and what is said.
STEPS = {
    "a": ("", "", LISTENER, 2, "no port has a Talker of it"),
    "b": ("", "classes B", TALKER, 2, "the port doesn't support class A, which the Talker's priority 3 is"),
    "n": ("pruning", "", TALKER, 2, "the neighbour has not asked for 91:e0:f0:00:00:01 by an MMRP frame"),
    "c": ("", "", "on 1 talker 1 failed 8000000000000009 7\n", 2, "bridge 8000000000000009 on the way refused it"),
    "d": ("", "", TALKER + "on 1 talker 1 size 300\n", 2, "on port 1 the last Talker join had another destination"),
    "k": ("", "", "on 1 talker 1 latency 5\non 1 talker 1 latency 6\n", 2, "on port 1 is 6 ns, and was 5 ns when it joined"),
    "e": ("", "", TALKER + "on 2 talker 1\n", 2, "this port holds a Talker of the StreamID too, and that on port 1 counts"),
    "f": ("", "", "on 1 talker 1 priority 5\n", 2, "the Talker's priority is 5, and the classes have 3 (A) and 2 (B)"),
    "j": ("", "", TALKER + "on 3 domain 6 4 2\n", 3, "of the class is registered priority 3, priority 4"),
    "l": ("", "", TALKER + "on 1 talker 2 to 91e0f0000001\n", 2, "is the destination of a lower StreamID too: 0000000000000001"),
    "m": ("fanin 1", "", "on 1 talker 1\non 3 talker 2\n", 2, "the Talker is on port 3, and the limit of inbound ports is 1"),
    "g": ("", "largest 200", TALKER, 2, "its frames have up to 224 octets, and the port's largest frame is 200"),
    "h": ("", "limits 10M 0", TALKER, 2, "it asks for 17.088 Mbit/s of class A; of the limit of 10 Mbit/s more important streams"
          " leave 10 Mbit/s, and 7.088 Mbit/s are missing"),
    "i": ("", "", TALKER + LISTENER, 2, "it is declared on the port; a Listener there is ready"),
}


@pytest.mark.parametrize("step", STEPS)
def test_each_step(srp, written, step):
    bridge, ports, calls, port, said = STEPS[step]
    text = written("text.txt", HEAD.format(bridge, ports) + calls + "time 100\n")
    stream = "2" if step in "lm" else "1"
    printed = srp("why", text, port, stream)
    assert f"step {step} decides" in printed and said in printed


def test_every_step_has_its_words():
    from srp import explain, words

    assert set(STEPS) == set(explain.MEANINGS) == set(words.REASONS)


def test_who_goes_before(srp):
    printed = srp("why", HALL, 3, "guest").splitlines()
    assert printed == [
        "stream 0200000000030000 guest on port 3",
        "the last advance decided: failed 1 (insufficient bandwidth), entry filter, Listener declared none",
        "step h decides by what is registered now: insufficient bandwidth",
        "  it asks for 17.088 Mbit/s of class A; of the limit of 75 Mbit/s more important streams leave 6.648 Mbit/s,"
        " and 10.44 Mbit/s are missing",
        "  1. 0200000000020000 conductor: 17.088 Mbit/s, rank 0, since second 3",
        "  2. 0200000000010000 choir: 17.088 Mbit/s, rank 1, since second 1",
        "  3. 0200000000010001: 17.088 Mbit/s, rank 1, since second 1",
        "  4. 0200000000010002: 17.088 Mbit/s, rank 1, since second 1",
    ]


def test_what_an_advance_has_not_decided_yet(srp, written):
    text = (ROOT / HALL).read_text().split("report 3 place 5\n")[0]
    printed = srp("why", written("early.txt", text), 3, "guest")
    assert "the last advance decided: advertise, entry forward" in printed and "step h decides by what is registered now" in printed
    assert "1. 0200000000020000 conductor: 17.088 Mbit/s, rank 0, new" in printed


def test_as_json(srp):
    found = json.loads(srp("why", HALL, 3, "02:00:00:00:00:03:00:00", "--json"))
    assert (found["step"], found["limit"], found["missing"], found["demand"]) == ("h", 75000000, 10440000, 17088000)
    assert [share["name"] for share in found["before"]] == ["conductor", "choir", "", ""]
    assert found["decided"] == {"column": "failed", "code": 1, "cause": "insufficient bandwidth", "listener": "none",
                                "entry": "filter"}


def test_from_a_capture(srp, tmp_path):
    capture = tmp_path / "hall.pcapng"
    srp("capture", HALL, "--received", "-o", capture)
    printed = srp("why", capture, 3, "0200000000030000", "--settings", HALL)
    assert "step h decides" in printed and "10.44 Mbit/s are missing" in printed


def test_what_cannot_be_asked(srp):
    assert "on port 3: no such stream; held are 0200000000010000 choir" in srp("why", HALL, 3, "77", status=2)
    assert srp("why", HALL, 4, "guest", status=2).endswith("on port 4: no such port\n")
