"""Frames in words: what is written reads back to the same frames."""
import pytest
from conftest import CHOIR, ROOT
from made import STAGE, TALKER, frame, pcap

HALL = "examples/asked-for/hall.txt"


@pytest.mark.parametrize("line", [
    "on 1 talker 0200000000010001",
    "on 1 talker 0200000000010001 to 91:e0:f0:00:fe:00 vlan 7 size 300 frames 2 priority 2 rank 0 latency 5 values 3 leave",
    "on 1 talker 0200000000010001 failed 8000000000000009 7 new",
    "on 2 listener 0200000000010001 ready values 63 joinin",
    "on 2 listener 0200000000010001 ignore and listener 0200000000010002 asking and listener 0200000000010003 readyfailed mt",
    "on 2 domain 5 2 2 values 2 in",
    "on 2 leaveall advertise and leaveall failed and leaveall listener and leaveall domain",
    "mmrp 2 mac 91:e0:f0:00:00:00 values 64",
    "mmrp 2 service 1 leave and leaveall mac and leaveall service",
])
def test_words_come_back(srp, written, tmp_path, line):
    text, capture = written("text.txt", f"bridge 8000000000000007\nports 2\nstart\n{line}\ntime 100\n"), tmp_path / "text.pcap"
    srp("capture", text, "--received", "-o", capture)
    printed = srp("capture", capture, "--words")
    assert line in printed.splitlines()


@pytest.mark.parametrize("pdu", [
    "00", "000000", "010000", TALKER[:-4], TALKER.replace("6c00000000", "6d00000000"), TALKER.replace("70000000", "71000000"),
    "000308" + "001e" + "0001" + "02" + "00" * 6 + "01" + "6c80" + "0001" + "02" + "00" * 6 + "02" + "6c40" + "0000" + "0000",
    "00040400092002050200027e00000000", "000308000e0002" + "02" + "00" * 7 + "7e900000" + "0000",
])
def test_octets_where_no_words_are(srp, written, pdu):
    """Without a Message, an EndMark or version 0; with spare events, several vectors, a LeaveAll with values, unlike kinds."""
    capture = written("odd.pcap", pcap((frame(STAGE, pdu, padding=0), None)))
    assert f"on 1 octets {pdu}" in srp("capture", capture, "--port", f"{STAGE}=1", "--words").splitlines()


def records_of(text, options=()):
    from srp import inputs

    return [record.octets for record in inputs.of_text("text.txt", text.encode()).records]


@pytest.mark.parametrize("example", [CHOIR, HALL, "examples/refused-frames/numbers.txt"])
def test_examples_come_back(srp, tmp_path, example):
    capture = tmp_path / "example.pcapng"
    text = (ROOT / example).read_text().replace("raw 2f\n", "")
    path = tmp_path / "example.txt"
    path.write_text(text)
    srp("capture", path, "--received", "-o", capture)
    words, octets = srp("capture", capture, "--words"), srp("capture", capture)
    assert records_of(words) == records_of(octets) and words != octets


def test_generated_frames_come_back():
    from srp import phrases, programs, records

    frames = []
    for seed in range(60):
        octets = programs.run([str(ROOT / "tests/reference"), "make", "calls", str(seed)], b"")
        frames += [record for record in records.split(octets, records.is_of_calls)[0] if record.is_frame]
    lines = [phrases.line_of(record) for record in frames]
    back, _ = records.split(programs.records_of_text("\n".join(lines).encode(), "calls", "quiet"), records.is_of_calls)
    assert back == frames
    in_words = sum(" octets" not in line for line in lines)
    assert in_words > len(frames) / 10
