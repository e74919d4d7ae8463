"""MMRP frames in captures: written and read among those of MSRP, by tshark too, and deciding what is pruned."""
import json
import re

import pytest
from conftest import CHOIR, ROOT, run
from made import DOMAIN, LISTENER, MIXER, STAGE, TALKER, complaints, fault_of, frame, made_by_text2pcap, needs_tshark, pcap

ASKED_FOR = "examples/asked-for/hall.txt"
MAC = "000206000191e0f00000016c00000000"
LEAVE = "000206000191e0f0000001b400000000"
LEAVE_ALL = "000206200000000000000000000000"
SETTINGS = ("bridge 8000000000000001 priorities 3 2 leave 60 vlan 2 fanin 0 pruning\n"
            "ports 2 classes AB overhead 42 largest 1522 limits 75000000 0 latencies 0 0\n")
BOTH = (f"{SETTINGS}start\non 1 octets {TALKER}\nmmrp 2 octets {MAC}\non 2 octets {DOMAIN}\ntime 50\nmmrp 1 octets {LEAVE}\n"
        f"on 2 octets {LISTENER}\ntime 150\nmmrp 2 octets {LEAVE}\ntime 150\n")
PORTS = "--port", f"{STAGE}=1", "--port", f"{MIXER}=2"


def records_of(path, *options):
    """The records of a text or a capture, in octets."""
    from srp import inputs, reading

    given = inputs.load(str(path), reading.Reading(*options))
    assert given.rest == b""
    return [record.octets for record in given.records]


def frames_of(octets):
    """Those of them that are frames."""
    return [record for record in octets if record[0] >> 4 in (1, 7)]


@pytest.fixture
def hall(tmp_path):
    """The hall of the example, up to its first advance."""
    text = tmp_path / "hall.txt"
    text.write_text((ROOT / ASKED_FOR).read_text().split("sum\n")[0])
    return text


@pytest.mark.parametrize("suffix", ["pcap", "pcapng"])
def test_both_protocols_come_back(srp, tmp_path, suffix):
    text, capture, again = tmp_path / "both.txt", tmp_path / f"both.{suffix}", tmp_path / f"again.{suffix}"
    text.write_text(BOTH)
    srp("capture", text, "--received", "-o", capture)
    assert srp("capture", capture, "--settings", text) == BOTH
    settings = records_of(text)[0][3:]
    assert records_of(capture, {f"02:00:00:00:00:0{port}": port for port in (1, 2)}, settings) == records_of(text)
    srp("capture", capture, "--settings", text, "--received", "-o", again)
    assert again.read_bytes() == capture.read_bytes()


def test_every_frame_of_the_example_comes_back(srp, tmp_path):
    """Refused ones too: of no port, without octets, without an EndMark, of a higher version."""
    capture = tmp_path / "hall.pcapng"
    srp("capture", ASKED_FOR, "--received", "-o", capture)
    frames = frames_of(records_of(ROOT / ASKED_FOR))
    assert frames_of(records_of(capture)) == frames
    assert [sum(octets[0] >> 4 == kind for octets in frames) for kind in (1, 7)] == [8, 23]


def columns(sheet):
    """The column and entry of each stream on each port."""
    lines = (line.split() for line in sheet.splitlines() if not line.startswith("port"))
    return {(stream[-1], int(port)): f"{column} {entry}" for stream, port, column, _, _, entry in lines}


def test_a_talker_goes_where_it_was_asked_for(srp, tmp_path, hall):
    """With the capture's MMRP frames it is advertised on ports 2 and 3 alone, and without them nowhere."""
    capture, silent, unasked = tmp_path / "hall.pcapng", tmp_path / "silent.txt", tmp_path / "unasked.pcapng"
    words = "--settings", hall, "--until", 100
    srp("capture", hall, "--received", "-o", capture)
    asked = columns(srp("sheet", capture, *words))
    assert asked == {
        ("1", 1): "none none", ("1", 2): "advertise forward", ("1", 3): "advertise filter", ("1", 4): "none none",
        ("1", 5): "none filter", ("2", 1): "none none", ("2", 2): "advertise forward", ("2", 3): "advertise filter",
        ("2", 4): "none none", ("2", 5): "none none"}
    assert srp("diff", capture, hall, *words) == "no difference\n"
    silent.write_text("".join(line for line in hall.read_text().splitlines(True) if not line.startswith("mmrp")))
    srp("capture", silent, "--received", "-o", unasked)
    assert not any("advertise" in column for column in columns(srp("sheet", unasked, *words)).values())


def test_what_ports_write_has_no_mmrp(srp, tmp_path, hall):
    """A bridge declares no addresses; those that it has heard decide which Talkers are written."""
    capture = tmp_path / "written.pcapng"
    srp("capture", hall, "-o", capture)
    text = srp("capture", capture)
    assert "mmrp" not in text and "start" not in text
    talkers = [line.split()[1] for line in text.splitlines() if "octets 000119" in line]
    assert talkers == ["2", "3"]


EVENTS = {"new": "0", "joinin": "1", "in": "2", "join": "3", "mt": "4", "leave": "5"}


def read_by_tshark(capture):
    """What tshark reads in the MMRP frames of a capture: destination, AttributeType, LeaveAllEvent, events and FirstValue."""
    names = ["eth.dst", *(f"mrp-mmrp.{name}" for name in ("attribute_type", "leave_all_event", "three_packed_event"))]
    fields = run("tshark", "-r", capture, "-Y", "mrp-mmrp", "-T", "fields", *(word for name in names for word in ("-e", name)))
    # FirstValue has no value in tshark's fields but the octets that it stands in
    octets = run("tshark", "-r", capture, "-Y", "mrp-mmrp", "-T", "json", "-x", "--no-duplicate-keys")
    firsts = (re.search(r'"mrp-mmrp.first_value_raw": \[\s*"(\w+)"', json.dumps(packet))[1] for packet in json.loads(octets.stdout))
    return [(*line.split("\t"), first) for line, first in zip(fields.stdout.splitlines(), firsts, strict=True)]


@needs_tshark
def test_mmrp_frames_are_read_by_tshark(srp, tmp_path):
    text, capture = tmp_path / "asked.txt", tmp_path / "asked.pcapng"
    lines = [f"mmrp 2 mac 91e0f000fe0{place} {event}" for place, event in enumerate(EVENTS)]
    text.write_text("\n".join([f"{SETTINGS}start", f"on 1 octets {TALKER}", *lines, "mmrp 1 mac 00000000000f values 4",
                               "mmrp 1 service 1", "mmrp 1 leaveall mac", f"on 2 octets {LISTENER}", "time 100"]))
    srp("capture", text, "--received", "-o", capture)
    assert complaints(capture) == ("", ["MRP-MSRP", *["MRP-MMRP"] * 9, "MRP-MSRP"])
    group = "01:80:c2:00:00:20"
    assert read_by_tshark(capture) == [
        *((group, "2", "0", number, f"91e0f000fe0{place}") for place, number in enumerate(EVENTS.values())),
        (group, "2", "0", "3,3,3,3", "00000000000f"), (group, "1", "0", "3", "01"), (group, "2", "1", "", "000000000000")]


@needs_tshark
def test_frames_of_other_tools(srp, tmp_path):
    """Tagged and padded, in the capture's order, with a check sequence or none. MVRP (88F5), for one, is passed over."""
    capture = made_by_text2pcap(tmp_path / "other", [
        (1700000000.25, frame(MIXER, MAC, kind="88f6")),
        (1700000000.25, frame(STAGE, TALKER)),
        (1700000000.25, frame("00:1b:21:00:00:09", "000102000100016c00000000", kind="88f5")),
        (1700000000.75, frame(MIXER, DOMAIN)),
        (1700000000.75, frame(MIXER, LEAVE_ALL, kind="88f6")),
        (1700000000.75, frame(MIXER, MAC, tag="8100e002", kind="88f6")),
        (1700000001.75, frame(MIXER, LEAVE + "ffffffff", tag="88a800648100e002", kind="88f6", padding=0)),
    ], "-F", "pcapng")
    assert srp("capture", capture, *PORTS) == (
        f"bridge 8000000000000001\nports 2\nstart\nmmrp 2 octets {MAC}\non 1 octets {TALKER}\ntime 50\non 2 octets {DOMAIN}\n"
        f"mmrp 2 octets {LEAVE_ALL}\nmmrp 2 octets {MAC}\ntime 150\nmmrp 2 octets {LEAVE}\ntime 150\n")
    named = srp("capture", capture, "--named", *PORTS).splitlines()
    assert named[3].startswith(f"# packet 1, from {MIXER} on interface ") and named[4].startswith("mmrp 2 ")


ASKING = (frame(STAGE, MAC, kind="88f6"), None)


@pytest.mark.parametrize("octets, said", [
    (pcap(ASKING, (frame(STAGE, MAC, kind="88f6"), 25)), "packet 2 is cut: 25 of its 60 octets were captured"),
    (pcap(ASKING, (frame(MIXER, MAC, kind="88f6"), None)),
     f"packet 2 is from {MIXER} on interface 0, which is no port; give --port {MIXER}=N"),
    (pcap((frame(STAGE, MAC, kind="88f5"), None)), "none of 1 packets is MSRP (EtherType 22ea) or MMRP (EtherType 88f6)"),
])
def test_broken_and_foreign_captures(srp, tmp_path, octets, said):
    assert said in fault_of(srp, tmp_path, octets)


def test_a_capture_of_mmrp_alone(srp, tmp_path):
    capture = tmp_path / "asking"
    capture.write_bytes(pcap(ASKING))
    assert srp("capture", capture, *PORTS) == f"bridge 8000000000000001\nports 2\nstart\nmmrp 1 octets {MAC}\ntime 0\n"
    assert "port 1: 91:e0:f0:00:00:01\n" in srp("table", capture, *PORTS)


def test_supposed_neighbours_are_heard_behind_the_start(srp, tmp_path):
    capture, settings = tmp_path / "late", tmp_path / "settings.txt"
    settings.write_text("bridge 8000000000000001 pruning\nports 2\n")
    asking = frame(MIXER, MAC, kind="88f6")
    capture.write_bytes(pcap((frame(STAGE, TALKER), None), (asking, None), (frame(MIXER, LISTENER), None)))
    words = *PORTS, "--settings", settings, "--domain"
    lines = srp("capture", capture, *words).splitlines()
    assert lines[2] == "start" and lines[3].startswith("# supposed") and lines[4].startswith("on 1 domain")
    assert "port 2 A 17088000/75000000" in srp("sheet", capture, *words)


# Without an EndMark of the PDU or of a list; with a length that is not the type's; of a higher version, with vectors of a type that
# is not known, of AttributeLength 0 and of 32; and too long.
ODD = ("", "00", "0000", "000206", "00020600", MAC[:-4], MAC[:-8], "0002080000" + "0000", "010300e004ffff00000000",
       "01032000070000" + "ff" * 33 + "0000" + MAC[2:], "000000" + "00" * 1498)


def test_frames_keep_their_meaning(srp, tmp_path):
    """Nothing is padded that a bridge would look at, and nothing is taken away that it refuses; what follows an EndMark is."""
    text, capture = tmp_path / "odd.txt", tmp_path / "odd.pcap"
    text.write_text(f"{SETTINGS}start\n" + "".join(f"mmrp 1 octets {pdu}\n" for pdu in (*ODD, MAC + "ff")) + "time 100\n")
    srp("capture", text, "--received", "-o", capture)
    words = "--settings", text, "--until", 100
    assert srp("capture", capture, *words) == text.read_text().replace(MAC + "ff", MAC)
    numbers = [line for line in srp("sheet", text).splitlines() if line.startswith("refused")]
    assert numbers == [f"refused {number}" for number in (2, 3, 3, 3, 3, 5, 2)]
    assert srp("sheet", text) == srp("sheet", capture, *words)
    # the table names who was refused: lines here, and packets there
    own, captured = (srp("table", *of).split("\nbridge ")[1] for of in ((text,), (capture, *words)))
    assert own == captured


def as_captured(record):
    """A record as a capture gives it back; one that is no frame stays."""
    from srp import captures, frames, link, packets, reading

    if not record.is_frame:
        return record
    octets = frames.as_frame(record, frames.sources_of({}))
    return captures.frame_of(packets.Packet(1, 0, "", link.ETHERNET, octets, len(octets)), reading.Reading()).record


def test_generated_frames_keep_their_meaning():
    """Frames of both protocols, good and bad ones, as a capture gives them back: every call is answered as before."""
    from srp import programs, records

    calls = []
    for seed in range(40):
        octets = programs.run([str(ROOT / "tests/reference"), "make", "calls", str(seed)], b"")
        calls += records.split(octets, records.is_of_calls)[0]
    captured = [as_captured(record) for record in calls]
    lines, again = (programs.calls(some) for some in (calls, captured))
    assert lines == again and calls != captured
    assert set(lines) > {f"mmrp {number}" for number in (0, 1, 2, 3, 4, 5, 6, 7, 14)}


def test_restarts_of_a_capture(srp, tmp_path, hall):
    """Frames of both protocols in many orders: one result, that of the text."""
    capture, order = tmp_path / "hall.pcapng", tmp_path / "order.txt"
    srp("capture", hall, "--received", "-o", capture)
    words = "--settings", hall, "--until", 100
    [line] = srp("restarts", 60, capture, *words).splitlines()
    assert line.startswith("60 of 60 orders, first order 0: ") and "refused none" in line
    assert [line] == srp("restarts", 60, hall).splitlines()
    order.write_text(srp("restarts", 60, capture, *words, "--order", 3))
    assert sorted(frames_of(records_of(order))) == sorted(frames_of(records_of(hall)))
    assert frames_of(records_of(order)) != frames_of(records_of(hall)) and order.read_text().count("mmrp") == 3


def test_records_that_a_sheet_does_not_know(srp, tmp_path):
    """An MMRP record among those of a sheet stops the reading, which is said or is an error."""
    from srp import inputs, records

    settings = inputs.load(str(ROOT / CHOIR)).settings
    path = tmp_path / "records"
    path.write_bytes(settings + records.receive_mmrp(1, bytes.fromhex(MAC)).octets + records.advance(100).octets)
    assert srp("sheet", path, status=1).splitlines()[0] == "stop"
    assert "the reading stopped early" in srp("table", path, status=1) and "the reading stopped early" not in srp("table", CHOIR)
    for words in (("capture", path, "--received", "-o", tmp_path / "out.pcap"), ("capture", path, "-o", tmp_path / "out.pcap"),
                  ("diff", CHOIR, path)):
        assert "the reading stops early" in srp(*words, status=2)


def test_a_text_without_a_start(srp, tmp_path):
    text = tmp_path / "sheet.txt"
    text.write_text(BOTH.replace("start\n", ""))
    for words in (("sheet", text), ("table", text), ("capture", text, "--received", "-o", tmp_path / "out.pcap")):
        assert "line 4: mmrp stands in texts of calls alone, which have a start" in srp(*words, status=2)
