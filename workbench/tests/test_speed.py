"""What is waited for: a hundred thousand frames written and read, and a table. Bounds are those of two cores under the emulator."""
import time

import pytest

FRAMES = 100_000


@pytest.fixture(scope="module")
def long(tmp_path_factory):
    """A text with so many frames, of which eight stand between two advances."""
    lines = ["bridge 8000000000000007", "ports 8"]
    for number in range(FRAMES):
        lines += [f"time {number}"] * (number % 8 == 0)
        lines.append(f"on {1 + number % 8} listener 02000000000100{number % 40:02x} ready")
    path = tmp_path_factory.mktemp("long") / "long.txt"
    path.write_text("\n".join([*lines, f"time {FRAMES}"]) + "\n")
    return path


def seconds(function, *words):
    began = time.monotonic()
    function(*words)
    return time.monotonic() - began


def test_frames_are_written_and_read(srp, long):
    capture, text = long.with_suffix(".pcapng"), long.with_suffix(".back")
    assert seconds(srp, "capture", long, "--received", "--out", capture) < 20
    assert seconds(srp, "capture", capture, "--out", text) < 5
    assert text.read_text().count("\non ") == FRAMES


def test_a_table_is_read():
    import srp

    with srp.Bridge("bridge 8000000000000007\nports 8 limits 1G 0") as bridge:
        bridge.hear_domain()
        bridge.feed("on 1 talker 0200000000010001 values 64\n" + "\n".join(
            f"on {port} listener 0200000000010001 ready values 64" for port in range(2, 9)))
        spent = []
        for clock in range(100, 1100, 100):
            bridge.advance(clock)
            spent.append(seconds(bridge.table))
        assert bridge.table().held == 64 and sorted(spent)[5] < 0.02
