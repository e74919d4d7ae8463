"""Captures as other tools make them, whole and broken, and what tshark says of one."""
import shutil
import struct

import pytest
from conftest import run

needs_tshark = pytest.mark.skipif(not shutil.which("tshark"), reason="tshark is not installed")

MIXER, STAGE = "00:1b:21:00:00:04", "00:1b:21:00:00:01"
# The group address of a frame, by its EtherType.
GROUPS = {"22ea": "0180c200000e", "88f6": "0180c2000020"}
TALKER = "000119001e0001020000000001000191e0f0000001000200e0000170000000006c00000000"
LISTENER = "000308000e000102000000000100016c8000000000"
DOMAIN = "0004040009000205020002" + "7e" + "00000000"


def frame(source, pdu, tag="", kind="22ea", padding=46):
    """The octets of a frame in hex."""
    return GROUPS.get(kind, GROUPS["22ea"]) + source.replace(":", "") + tag + kind + pdu.ljust(2 * padding, "0")


def made_by_text2pcap(path, frames, *options):
    """A capture that text2pcap makes of frames, each with its time in seconds."""
    dump = path.with_suffix(".dump")
    dump.write_text("".join(f"{time:.6f}\n0000 {' '.join(octets[k:k + 2] for k in range(0, len(octets), 2))}\n\n"
                            for time, octets in frames))
    done = run("text2pcap", "-q", "-t", "%s.%f", *options, dump, path)
    assert done.returncode == 0, done.stderr
    return path


def complaints(path):
    """What tshark holds against a capture, and the protocol of each packet."""
    faults = run("tshark", "-r", path, "-Y", "_ws.malformed or _ws.expert.severity >= 0x400000")
    protocols = run("tshark", "-r", path, "-T", "fields", "-e", "_ws.col.Protocol")
    assert faults.returncode == protocols.returncode == 0, faults.stderr + protocols.stderr
    assert "cut short" not in faults.stderr
    return faults.stdout, protocols.stdout.split()


def pcap(*packets, link=1, order="<"):
    """A pcap file of packets: octets in hex, and how many of them were captured."""
    octets = struct.pack(order + "IHHiIII", 0xA1B2C3D4, 2, 4, 0, 0, 65535, link)
    for time, (full, kept) in enumerate(packets):
        full = bytes.fromhex(full)
        octets += struct.pack(order + "IIII", 1700000000 + time, 0, len(full[:kept]), len(full)) + full[:kept]
    return octets


def fault_of(srp, tmp_path, octets, *words):
    capture = tmp_path / "broken"
    capture.write_bytes(octets)
    return srp("capture", capture, "--port", f"{STAGE}=1", *words, status=2)
