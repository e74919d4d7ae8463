"""A customer's capture: packets that are refused, cut, from the bridge itself or out of order, and cooked ones."""
import struct

import pytest
from conftest import CHOIR
from made import DOMAIN, LISTENER, MIXER, STAGE, TALKER, frame, pcap

PORTS = "--port", f"{STAGE}=1", "--port", f"{MIXER}=2"
BRIDGE = "00:1b:21:00:00:ff"
GOOD, READY = (frame(STAGE, TALKER), None), (frame(MIXER, LISTENER), None)
# AttributeType 5 is not known: refused with 4.
BAD = (frame(MIXER, "0005080002" + "00000000"), None)


def test_every_refusal_names_its_packet(both, srp, written):
    capture = written("hall.pcap", pcap(GOOD, BAD, (frame(BRIDGE, "45" * 46, kind="0800"), None), BAD))
    status, printed, said = both("sheet", capture, *PORTS)
    assert status == 0 and printed.startswith("refused 4\nrefused 4\n")
    for number in (2, 4):
        assert f"packet {number}, on port 2 from {MIXER}: refused with 4, unknown AttributeType" in said
    summed = (f"2 frames refused with 4, unknown AttributeType: packet 2, on port 2 from {MIXER};"
              f" packet 4, on port 2 from {MIXER}")
    assert f"3 frames handed over, 2 refused\n  {summed}" in srp("table", capture, *PORTS).replace("\n    ", " ")
    assert summed in srp("sheet", "--html", capture, *PORTS)
    for command in (("why", capture, 2, "0200000000010001"), ("history", capture), ("diff", capture, capture),
                    ("capture", capture, "-o", capture.with_name("out.pcap"))):
        assert f"packet 2, on port 2 from {MIXER}: refused with 4" in both(*command, *PORTS)[2]


def test_refusals_of_a_text_name_their_lines(srp, written):
    text = written("hall.txt", "bridge 8000000000000007\nports 2\non 1 octets 0005080002\n\non 3 talker 1\ntime 5\ntime 4\n")
    printed = srp("table", text)
    assert "2 frames handed over, 2 refused" in printed
    for line in ("1 frame refused with 1, no such port: line 5", "1 frame refused with 4, unknown AttributeType: line 3",
                 "1 call refused with 9, the time is below the clock: line 7"):
        assert line in printed
    assert "0 frames handed over, none refused" in srp("table", written("idle.txt", "bridge 7\nports 1\ntime 1\n"))


def test_the_bridges_own_frames_are_left_out(srp, written):
    capture = written("mirror.pcap", pcap(GOOD, (frame(BRIDGE, LISTENER), None), READY))
    assert f"give --port {BRIDGE}=N, or --ignore for the bridge's own" in srp("capture", capture, *PORTS, status=2)
    text = srp("capture", capture, *PORTS, "--ignore", BRIDGE.upper())
    assert text.count("\non ") == 2 and "--ignore" not in text
    # cut ones of the bridge's own are left out too
    capture = written("cut.pcap", pcap(GOOD, (frame(BRIDGE, LISTENER), 40)))
    assert srp("capture", capture, *PORTS, "--ignore", BRIDGE).count("\non ") == 1


@pytest.mark.parametrize("octets", [pcap(GOOD, READY, GOOD)[:-1], pcap(GOOD, READY, GOOD)[:-60], pcap(GOOD, READY, GOOD)[:-75]])
def test_a_cut_last_packet_is_left_out(both, written, octets):
    status, printed, said = both("capture", written("cut.pcap", octets), *PORTS)
    assert status == 0 and printed.count("\non ") == 2
    assert "warning" in said and "packet 3 is cut by the end of the file, and left out" in said


def test_a_cut_pcapng(both, srp, tmp_path, written):
    whole = tmp_path / "whole.pcapng"
    srp("capture", CHOIR, "--received", "-o", whole)
    lines = srp("capture", whole).count("\non ")
    for missing in (1, 5, 60):
        status, printed, said = both("capture", written("cut.pcapng", whole.read_bytes()[:-missing]))
        assert status == 0 and printed.count("\non ") == lines - 1 and f"packet {lines} is cut by the end of the file" in said


def test_packets_that_go_back_in_time_are_named(both, written):
    capture = written("back.pcap", pcap(GOOD, READY, GOOD) + pcap(READY)[24:])
    status, printed, said = both("capture", capture, *PORTS)
    assert status == 0 and printed.count("\ntime ") == 3
    assert "packets go back in time, and are taken at that of the packet before: packet 4 by 2.00 s" in said


def test_until_is_checked(srp, written):
    capture = written("hall.pcap", pcap(GOOD, READY))
    said = srp("sheet", capture, *PORTS, "--until", 99, status=2)
    assert "--until 99: packet 2 comes at 100, and the clock goes to 4294967295" in said
    assert "4294967296 is not in the range" in srp("sheet", capture, *PORTS, "--until", 1 << 32, status=2)
    assert srp("capture", capture, *PORTS, "--until", 100).endswith("time 100\n")


def cooked(version, source, pdu, kind="22ea", tags=""):
    """A packet of Linux's cooked capture, in hex: one that was received, of Ethernet."""
    address = source.replace(":", "") + "0000"
    if version == 1:
        return struct.pack(">HHH", 1, 1, 6).hex() + address + tags + kind + pdu
    return (tags[:4] or kind) + "0000" + "00000007" + "0001" + "0106" + address + (tags[4:] + kind if tags else "") + pdu


@pytest.mark.parametrize("version, link", [(1, 113), (2, 276)])
def test_cooked_captures(srp, written, version, link):
    made = [(cooked(version, STAGE, TALKER.ljust(92, "0")), None), (cooked(version, MIXER, DOMAIN), None),
            (cooked(version, MIXER, "45" * 40, kind="0800"), None)]
    made.append((cooked(version, MIXER, LISTENER, tags="8100e002" if version == 1 else "8100e002"), None))
    capture = written("any.pcap", pcap(*made, link=link))
    printed = srp("capture", capture, *PORTS)
    assert printed.splitlines()[2::2] == [f"on 1 octets {TALKER}", f"on 2 octets {DOMAIN}", f"on 2 octets {LISTENER}"]
    if version == 2:
        assert srp("capture", capture, "--port", "index7=2", "--named").count("on interface index7\n") == 3
