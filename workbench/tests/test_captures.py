"""Captures: written, read back, and read from other tools, whole and broken."""
import re

import pytest
from conftest import CHOIR, ROOT, run
from made import (DOMAIN, GROUPS, LISTENER, MIXER, STAGE, TALKER, complaints, fault_of, frame, made_by_text2pcap, needs_tshark,
                  pcap)

HEAD = "bridge 8000000000000001\nports 2\n"


@needs_tshark
@pytest.mark.parametrize("suffix", ["pcap", "pcapng"])
def test_what_ports_write_is_read_by_tshark_and_comes_back(srp, tmp_path, suffix):
    capture, again = tmp_path / f"written.{suffix}", tmp_path / f"again.{suffix}"
    srp("capture", CHOIR, "-o", capture)
    assert complaints(capture) == ("", ["MRP-MSRP"] * 12)
    text = tmp_path / "text.txt"
    text.write_text(srp("capture", capture))
    srp("capture", text, "--received", "-o", again)
    assert again.read_bytes() == capture.read_bytes()
    assert srp("capture", again) == text.read_text()


def test_what_ports_write_is_what_write_gives(srp, tmp_path):
    import srp as package

    capture = tmp_path / "written.pcap"
    srp("capture", CHOIR, "-o", capture)
    expected = []
    with package.Bridge() as bridge:
        for record in package.load(str(ROOT / CHOIR)).records:
            bridge.call(record)
            if record.kind == 2:
                expected.append(f"time {record.time}")
                expected += [f"on {port} octets {pdu.hex()}" for port in range(1, 5) for pdu in bridge.said(port)]
    assert srp("capture", capture).splitlines()[2:] == [*expected, "time 500"]


@pytest.mark.parametrize("text", sorted((ROOT / "tests/written").glob("*.txt")), ids=lambda path: path.stem)
def test_the_last_pdu_of_a_port(text):
    """A port's PDUs are those that writing on to the end gives, where they are several and where one is full or nearly so."""
    import srp as package
    from srp import frames

    given = package.load(str(text))
    found = [record.body for _, record in frames.written(given, lambda _: None, [])]
    with package.Bridge() as bridge:
        list(bridge.calls(given.records))
        ports = range(1, bridge.table().settings.ports + 1)
        assert found == [pdu for port in ports for pdu in bridge.declarations(port)]


def test_the_frames_of_an_input_give_its_sheet(srp, tmp_path):
    capture = tmp_path / "received.pcapng"
    srp("capture", CHOIR, "--received", "-o", capture)
    sheet = (ROOT / "examples/choir/sheet").read_text()
    assert srp("sheet", capture, "--settings", CHOIR, "--until", 500) == sheet
    assert srp("diff", capture, CHOIR, "--settings", CHOIR, "--until", 500) == "no difference\n"


@needs_tshark
def test_the_empty_pdu_is_written_padded(srp, tmp_path):
    """Where a neighbour sends one. A port of this bridge sends none, and where no port has anything to say there is no capture."""
    text, capture = tmp_path / "idle.txt", tmp_path / "idle.pcap"
    text.write_text("bridge 8000000000000007\nports 2 classes none\ntime 100\non 1 octets 000000\non 2 octets 000000\n")
    assert "no port has something to say" in srp("capture", text, "-o", capture, status=2)
    srp("capture", text, "--received", "-o", capture)
    assert complaints(capture) == ("", ["MRP-MSRP"] * 2)
    octets = capture.read_bytes()
    assert len(octets) == 24 + 2 * (16 + 60)
    assert octets[24 + 16:24 + 16 + 60].hex() == GROUPS["22ea"] + "020000000001" + "22ea" + "00" * 46
    assert srp("capture", capture) == f"{HEAD}time 100\non 1 octets 000000\non 2 octets 000000\ntime 100\n"


@needs_tshark
def test_domain_values_are_written_and_read_by_tshark(srp, tmp_path):
    text, capture = tmp_path / "idle.txt", tmp_path / "idle.pcap"
    text.write_text("bridge 8000000000000007 priorities 6 1 vlan 4094\nports 1\nports 1 classes B\ntime 100\n")
    srp("capture", text, "-o", capture)
    assert complaints(capture) == ("", ["MRP-MSRP"] * 2)
    names = [f"mrp-msrp.sr_class_{name}" for name in ("id", "priority", "vid")]
    shown = run("tshark", "-r", capture, "-T", "fields", *(word for name in names for word in ("-e", name)))
    assert shown.stdout.splitlines() == ["5,6\t1,6\t4094,4094", "5\t1\t4094"]


SAID_BY_TSHARK = {"asking": "Asking Failed", "ready": "Ready", "readyfailed": "Ready Failed"}


def asked_for(text):
    """What the Listener lines of a text ask for, in the words of tshark: by StreamID, of each value."""
    lines = re.findall(r"^on 2 listener (\w+) (\w+)(?: values (\d+))?$", text, re.MULTILINE)
    return [(int(first, 16) + n, SAID_BY_TSHARK[kind]) for first, kind, values in lines for n in range(int(values or 1))]


def listeners_shown(capture, source):
    """What tshark shows of the Listeners from an address: all that isn't Ignore, and how many vectors they stand in."""
    shown, vectors = [], 0
    for vector in run("tshark", "-r", capture, "-Y", f"eth.src == {source}", "-V").stdout.split("Vector Attribute\n"):
        kinds = re.findall(r"Declaration Type: (.+) \(", vector)
        events = re.findall(r"Attribute Event: (\w+)", vector)
        if kinds:
            first = int(re.search(r"Stream ID: 0x(\w+)", vector)[1], 16)
            assert events == ["New" if kind == "Ignore" else "JoinMt" for kind in kinds]
            shown += [(first + n, kind) for n, kind in enumerate(kinds) if kind != "Ignore"]
            vectors += 1
    return shown, vectors


@needs_tshark
@pytest.mark.parametrize("name, vectors", [("gaps", 13), ("mixture", 1), ("listeners-apart", 2), ("domain-apart", 2)])
def test_packed_listeners_are_read_by_tshark_as_they_were_asked_for(srp, tmp_path, name, vectors):
    text, capture = tmp_path / "packed.txt", tmp_path / "packed.pcap"
    text.write_text((ROOT / f"tests/written/{name}.txt").read_text().replace("start\n", ""))
    srp("capture", text, "-o", capture)
    assert complaints(capture)[0] == ""
    assert listeners_shown(capture, "02:00:00:00:00:01") == (asked_for(text.read_text()), vectors)


def test_a_capture_without_domain_frames(srp, tmp_path):
    """With --domain each port's neighbour is supposed to be in the domain, and the text says so."""
    capture = tmp_path / "late"
    capture.write_bytes(pcap(GOOD, (frame(MIXER, LISTENER), None)))
    words = ["--port", f"{STAGE}=1", "--port", f"{MIXER}=2", "--until", 200]
    assert "port 2 A 0/75000000" in srp("sheet", capture, *words)
    assert "port 2 A 17088000/75000000" in srp("sheet", capture, *words, "--domain")
    text = srp("capture", capture, *words, "--domain").splitlines()
    assert text[2].startswith("# supposed") and text[3:5] == [f"on {port} domain 5 2 2 and domain 6 3 2" for port in (1, 2)]
    settings = tmp_path / "settings.txt"
    settings.write_text("bridge 8000000000000001 priorities 3 0 vlan 70\nports 2 classes A\n")
    printed = srp("capture", capture, *words, "--domain", "--settings", settings)
    assert "\non 2 domain 5 0 70 and domain 6 3 70\n" in printed
    assert "port 2 A 17088000/75000000" in srp("sheet", "-", given=printed)


@pytest.mark.parametrize("pdu", ["00", "000304", TALKER[:-4], "000000" + "00" * 1498, "000000ff"])
def test_frames_keep_their_meaning(srp, tmp_path, pdu):
    """Nothing is padded that a bridge would look at, and nothing is taken away that it refuses."""
    text, capture = tmp_path / "odd.txt", tmp_path / "odd.pcap"
    text.write_text(f"bridge 8000000000000007\nports 2\non 1 octets {pdu}\ntime 100\n")
    srp("capture", text, "--received", "-o", capture)
    back = pdu if pdu != "000000ff" else "000000"
    assert srp("capture", capture, "--settings", text).splitlines()[2] == f"on 1 octets {back}"
    assert srp("sheet", text) == srp("sheet", capture, "--settings", text, "--until", 100)


@needs_tshark
@pytest.mark.parametrize("kind", ["pcap", "pcapng", "nsecpcap"])
def test_tagged_and_padded_frames_of_other_tools(srp, tmp_path, kind):
    capture = made_by_text2pcap(tmp_path / "other", [
        (1700000000.25, frame(STAGE, TALKER)),
        (1700000000.25, frame(MIXER, DOMAIN)),
        (1700000000.26, frame("00:1b:21:00:00:09", "45" * 46, kind="0800")),
        (1700000000.75, frame(MIXER, LISTENER, tag="8100e002")),
        (1700000001.75, frame(MIXER, LISTENER + "ffffffff", tag="88a800648100e002", padding=0)),
    ], "-F", kind)
    words = ["--port", f"{STAGE.upper().replace(':', '-')}=1", "--port", f"{MIXER}=2"]
    expected = (f"{HEAD}on 1 octets {TALKER}\non 2 octets {DOMAIN}\n"
                f"time 50\non 2 octets {LISTENER}\ntime 150\non 2 octets {LISTENER}\ntime 150\n")
    assert srp("capture", capture, *words) == expected
    assert "port 2 A 17088000/75000000" in srp("sheet", capture, *words)
    named = srp("capture", capture, "--named", *words).splitlines()
    assert named[2].startswith(f"# packet 1, from {STAGE} on interface ") and named[4].startswith(f"# packet 2, from {MIXER}")
    assert named[7].startswith(f"# packet 4, from {MIXER}")


@needs_tshark
def test_ports_by_interface(srp, tmp_path):
    single = [made_by_text2pcap(tmp_path / name, [(1700000000 + k, frame(STAGE, pdu))], "-F", "pcapng", "-N", name)
              for k, (name, pdu) in enumerate((("eth0", TALKER), ("eth1", LISTENER)))]
    merged = tmp_path / "merged.pcapng"
    assert run("mergecap", "-w", merged, *single).returncode == 0
    printed = srp("capture", merged, "--port", "eth0=1", "--port", "eth1=2")
    assert printed == f"{HEAD}on 1 octets {TALKER}\ntime 100\non 2 octets {LISTENER}\ntime 100\n"


GOOD = (frame(STAGE, TALKER), None)


@pytest.mark.parametrize("octets, said", [
    (pcap(GOOD, GOOD)[:20], "cut before packet 1"),
    (pcap(GOOD, (frame(STAGE, TALKER), 40)), "packet 2 is cut: 40 of its 60 octets were captured"),
    (pcap(GOOD, (frame(STAGE, TALKER), 13)), "packet 2 is cut: 13 of its 60 octets were captured"),
    (pcap(GOOD, (frame(STAGE, TALKER, tag="8100e002"), 16)), "packet 2 is cut: 16 of its 64 octets were captured"),
    (pcap((frame(STAGE, "45" * 46, kind="0800"), None)),
     "none of 1 packets is MSRP (EtherType 22ea) or MMRP (EtherType 88f6); packet 1 has EtherType 0800"),
    (pcap(GOOD, link=105), "packet 1 is no Ethernet frame: its link type is 105"),
    (pcap(GOOD, (frame(MIXER, TALKER), None)), f"packet 2 is from {MIXER} on interface 0, which is no port; give --port {MIXER}=N"),
    (pcap((frame(MIXER, TALKER), None), (frame(STAGE[:-1] + "9", TALKER), None)),
     f"packet 1 is from {MIXER} on interface 0, which is no port; give --port {MIXER}=N --port {STAGE[:-1]}9=N, or --ignore"),
    (pcap(), "none of 0 packets is MSRP"),
])
def test_broken_and_foreign_captures(srp, tmp_path, octets, said):
    assert said in fault_of(srp, tmp_path, octets)


def test_times_that_go_back_make_no_advance(srp, tmp_path):
    later, earlier = pcap(GOOD, GOOD), pcap(GOOD)
    capture = tmp_path / "unordered"
    capture.write_bytes(later + earlier[24:])
    frame_line = f"on 1 octets {TALKER}\n"
    expected = f"bridge 8000000000000001\nports 1\n{frame_line}time 100\n{frame_line}{frame_line}time 100\n"
    assert srp("capture", capture, "--port", f"{STAGE}=1") == expected


def test_a_capture_of_what_is_written_from_a_capture(srp, tmp_path):
    first, second = tmp_path / "first.pcap", tmp_path / "second.pcapng"
    srp("capture", CHOIR, "--received", "-o", first)
    srp("capture", first, "--settings", CHOIR, "-o", second)
    assert srp("capture", second).count("on 4 octets") == 3


def test_a_capture_on_standard_input(tmp_path, srp):
    capture = tmp_path / "first.pcap"
    srp("capture", CHOIR, "--received", "-o", capture)
    piped = run("bash", "-c", f"./srp capture - <{capture} | ./srp sheet -")
    assert piped.stdout == srp("sheet", capture) != ""


def test_big_endian_captures_are_read(srp, tmp_path):
    capture = tmp_path / "big"
    capture.write_bytes(pcap(GOOD, GOOD, order=">"))
    assert srp("capture", capture, "--port", f"{STAGE}=1").count("on 1 octets") == 2


@pytest.mark.parametrize("change, said", [
    (lambda octets: octets[:-92] + b"\3\0\0\0" + octets[-88:], "packet 2 has no time"),
    (lambda octets: octets[:-4] + b"\0\0\0\0", "packet 2 cannot be read"),
    (lambda octets: octets[:-88] + b"\7\0\0\0" + octets[-84:], "packet 2 cannot be found: a block before it has length 7"),
])
def test_broken_pcapng(srp, tmp_path, change, said):
    text, capture = tmp_path / "two.txt", tmp_path / "two.pcapng"
    text.write_text(f"{HEAD}on 1 octets {TALKER}\non 1 octets {TALKER}\ntime 100\n")
    srp("capture", text, "--received", "-o", capture)
    octets = change(capture.read_bytes())
    assert said in fault_of(srp, tmp_path, octets, "--port", "port1=1")


def test_words_that_are_no_ports(srp):
    for word in ("eth0", "=1", "eth0=0", "eth0=9", "eth0=x"):
        assert f"--port {word}" in srp("capture", CHOIR, "--port", word, status=2)
    twice = "--port", "00-1B-21-00-00-01=1", "--port", "00:1b:21:00:00:01=2"
    assert "00:1b:21:00:00:01 is port 1 already" in srp("capture", CHOIR, *twice, status=2)
    assert "is no capture" in srp("capture", CHOIR, status=2)
