"""What inputs are taken for, which options mean something for them, and what is written over."""
import bz2
import gzip
import lzma
import os

import pytest
from conftest import CHOIR, ROOT
from made import LISTENER, MIXER, STAGE, TALKER, frame, pcap

PORTS = "--port", f"{STAGE}=1", "--port", f"{MIXER}=2"
CAPTURE = pcap((frame(STAGE, TALKER), None), (frame(MIXER, LISTENER), None))
NINE = "bridge 8000000000000007\nports 9\n"


def test_settings_stand_in_for_those_of_any_input(srp, both, written):
    model = written("model.txt", "bridge 8000000000000007\nports 4 limits 60M 0\n")
    assert "port 4 A 51264000/60000000 B 0/0" in srp("sheet", "--settings", model, CHOIR)
    calls = "examples/why-refused/hall.txt"
    assert "port 3 A 51264000/60000000" in srp("sheet", "--settings", model, calls)
    records = written("records", (ROOT / "crates/srpsheet/stdin").read_bytes())
    assert "port 2 A 17088000/60000000 B 0/0" in srp("sheet", "--settings", model, records)
    unstarted = written("unstarted", bytes.fromhex("2000000064"))
    assert "has no start" in srp("sheet", "--calls", "--settings", model, unstarted, status=2)
    assert "limits of 60 Mbit/s" not in both("sheet", "--settings", model, written("capture", CAPTURE), *PORTS)[2]


@pytest.mark.parametrize("option", [("--until", 5), ("--domain",), ("--port", "eth0=1"), ("--ignore", "eth0")])
def test_options_of_captures_mean_nothing_for_texts(srp, option):
    for command in (("sheet", CHOIR), ("table", CHOIR), ("diff", CHOIR, CHOIR), ("restarts", 3, CHOIR), ("history", CHOIR),
                    ("why", CHOIR, 1, "1")):
        assert srp(*command, *option, status=2) == f"srp: {option[0]} tells how a capture is read, and no input is one\n"


def test_options_that_mean_nothing(srp, tmp_path, written):
    assert "no input is records" in srp("sheet", CHOIR, "--calls", status=2)
    capture = written("capture", CAPTURE)
    assert "--received means something where a capture is written" in srp("capture", capture, *PORTS, "--received", status=2)
    for option in ("--named", "--words"):
        assert f"{option} means something where a text is written" in srp(
            "capture", CHOIR, option, "-o", tmp_path / "out.pcap", status=2)
    assert "--until tells how a capture is read" in srp("capture", CHOIR, "--until", 5, "-o", tmp_path / "out.pcap", status=2)
    # the ports are also the addresses of what is written
    srp("capture", CHOIR, "--port", f"{STAGE}=1", "-o", tmp_path / "out.pcap")
    assert bytes.fromhex(STAGE.replace(":", "")) in (tmp_path / "out.pcap").read_bytes()


def test_an_input_is_not_written_over(srp, tmp_path, written):
    capture = written("hall.pcap", CAPTURE)
    (tmp_path / "link.pcap").symlink_to(capture)
    os.link(capture, tmp_path / "hard.txt")
    for out in ("hall.pcap", "link.pcap", "hard.txt"):
        assert "is the input itself" in srp("capture", capture, *PORTS, "--out", tmp_path / out, status=2)
    assert capture.read_bytes() == CAPTURE


def test_what_is_written_stands_beside_until_it_is_whole(srp, tmp_path, written):
    out = written("out.pcap", "the old one")
    out.chmod(0o640)
    broken = written("broken.txt", "bridge 8000000000000007\nports 2\nraw 2f\n")
    assert "the reading stops early" in srp("capture", broken, "--out", out, status=2)
    assert out.read_text() == "the old one"
    srp("capture", CHOIR, "--out", out)
    assert out.read_bytes()[:4] == bytes.fromhex("d4c3b2a1") and out.stat().st_mode & 0o777 == 0o640
    assert "No such file" in srp("capture", CHOIR, "--out", tmp_path / "none" / "out.pcap", status=2)
    (tmp_path / "full.pcap").symlink_to("/dev/full")
    assert "No space left" in srp("capture", CHOIR, "--out", tmp_path / "full.pcap", status=2)
    assert sorted(path.name for path in tmp_path.iterdir()) == ["broken.txt", "full.pcap", "out.pcap"]


def test_settings_that_nobody_gave(both, srp, written):
    capture = written("hall.pcap", CAPTURE)
    status, printed, said = both("sheet", capture, *PORTS)
    assert status == 0 and "port 2 A 0/75000000" in printed
    assert "warning" in said and "limits of 75 Mbit/s (A) and 0 bit/s (B)" in said and "2 ports" in said
    assert "limits of 75 Mbit/s (A) and 0 bit/s (B)" in srp("sheet", "--html", capture, *PORTS)
    model = written("model.txt", "bridge 8000000000000007\nports 2\n")
    assert both("sheet", capture, *PORTS, "--settings", model)[2] == ""


@pytest.mark.parametrize("settings, said", [
    (b"", "is empty"),
    (NINE, "a bridge has 1 to 8 ports, and these settings say 9"),
    ("bridge 8000000000000007\nports 1\n", "packet 2 arrives on port 2, and the settings that are given have 1 port"),
    ("# nothing\n", "the settings have 0 octets"),
    (CAPTURE, "a capture has no settings"),
], ids=["empty", "nine", "fewer", "nothing", "capture"])
def test_settings_that_are_none(srp, written, settings, said):
    words = srp("sheet", written("hall.pcap", CAPTURE), *PORTS, "--settings", written("model", settings), status=2)
    assert said in words and words.count("\n") == 1


@pytest.mark.parametrize("name, content, said", [
    ("empty", b"", "is empty"), ("empty.txt", b"", "is empty"),
    ("hall.xz", lzma.compress(CAPTURE), "is packed by xz"), ("hall.bz2", bz2.compress(CAPTURE), "is packed by bzip2"),
    ("hall.snoop", b"snoop\0\0\0\0\0\0\2", "a capture of snoop"), ("page.png", b"\x89PNG\r\n\x1a\n", "a picture"),
    ("wide.txt", NINE.encode("utf-16"), "a text in UTF-16"), ("records.txt", b"\0\1\2", "has octets that no text has"),
    ("cut.gz", gzip.compress(CAPTURE)[:40], "cannot be unpacked"),
], ids=lambda part: part if isinstance(part, str) else "")
def test_files_that_are_no_input(srp, written, name, content, said):
    path = written(name, content)
    for command in ("sheet {}", "table {}", f"diff {CHOIR} {{}}", "capture {} -o out.pcap", "history {}"):
        words = srp(*command.format(path).split(), status=2)
        assert said in words and words.count("\n") == 1


def test_records_begin_with_any_bridge_id(srp, written):
    """Two octets alone make no gzip and no UTF-16."""
    records = (ROOT / "crates/srpsheet/stdin").read_bytes()
    for first in ("1f8b", "fffe", "feff", "89504e47", "7f454c00"):
        path = written("records", bytes.fromhex(first) + records[len(first) // 2:])
        assert srp("sheet", path) == (ROOT / "examples/worked-example/sheet").read_text()


def test_a_reading_that_stops(both, written):
    """Refused settings, foreign octets and a cut record: stop is printed, the reason said, and the status is 1."""
    nine, foreign = written("nine.txt", NINE), written("foreign", bytes(range(256)))
    cut = written("cut", (ROOT / "crates/srpsheet/stdin").read_bytes() + b"\x20\0")
    refused = "the reading stops early: the settings are refused: a bridge has 1 to 8 ports, and these settings say"
    reasons = {nine: f"nine.txt: {refused} 9", foreign: f"foreign: {refused} 0",
               cut: "record 6: no record begins so, or it is cut"}
    for path, reason in reasons.items():
        status, printed, said = both("sheet", path)
        assert status == 1 and "stop\n" in printed and reason in said
        assert both("table", path)[0] == 1
        status, printed, _ = both("sheet", "--json", path)
        assert status == 1 and reason.partition(": the reading stops early: ")[2] in printed
        # what shows no stop takes no such input
        for words in (("why", path, 1, "1"), ("history", path), ("restarts", 3, path), ("diff", path, path)):
            assert "the reading stops early" in both(*words)[2] and both(*words)[0] == 2
    line = written("line.txt", "bridge 8000000000000007\nports 1\ntime 5\nraw 2f\n")
    assert "line 4: no record begins so, or it is cut" in both("sheet", line)[2]


def test_what_is_packed_by_gzip_is_read(srp, written):
    packed = written("hall.pcap.gz", gzip.compress(CAPTURE))
    assert srp("capture", packed, *PORTS) == srp("capture", written("hall.pcap", CAPTURE), *PORTS)
    text = gzip.compress((ROOT / CHOIR).read_bytes())
    assert srp("sheet", written("choir.txt.gz", text)) == srp("sheet", "-", given=text) == srp("sheet", CHOIR)
