"""How the command ends: by its status, with one line, and with what was done kept."""
import json
import os
import signal
import subprocess
import time

import pytest
from conftest import CHOIR, ROOT, run


@pytest.mark.parametrize("words, said", [
    (["nothing"], "No such command 'nothing'"),
    (["sheet"], "Missing argument 'FILE..'"),
    (["sheet", "--quick", CHOIR], "No such option: --quick"),
    (["why", CHOIR, "9", "1"], "9 is not in the range 1<=x<=8"),
    (["sheet", CHOIR, "--until", "-1"], "-1 is not in the range"),
    (["restarts", "0", CHOIR], "a number of orders, 1 or more, and a file are expected"),
    (["restarts", "ten", CHOIR], "a number of orders, 1 or more, and a file are expected"),
    (["restarts", "10", CHOIR, "--order", "10"], "--order 10: of 10 orders the last is 9"),
    (["restarts", "10", CHOIR, "--shard", "3/2"], "shards are numbered from 1 to their number"),
    (["restarts", "--merge", "part", "--seed", "0"], "--seed means nothing beside --merge"),
    (["restarts", "--merge", "part", "--settings", CHOIR], "--settings means nothing beside --merge"),
    (["restarts", "10", CHOIR, "--order", "3", "--json"], "--json means nothing beside --order"),
    (["restarts", "10", CHOIR, "--order", "3", "--resume", "kept"], "--resume means nothing beside --order"),
])
def test_a_usage_error_is_one_line(both, words, said):
    status, printed, told = both(*words)
    assert (status, printed, told.count("\n")) == (2, "", 1)
    assert told.startswith("srp: ") and said in told and "--help tells how to call it" in told


def test_help_and_no_command():
    assert run("./srp", "--help").stdout == run("./srp").stdout != ""


def test_a_full_disk_and_a_closed_pipe():
    """Neither is a difference, and neither shows a traceback."""
    for words in (f"diff {CHOIR} examples/hall-quiet/hall.txt", f"sheet {CHOIR}", f"table {CHOIR}", f"sheet --html {CHOIR}"):
        full = run("bash", "-c", f"./srp {words} >/dev/full")
        assert (full.returncode, full.stderr) == (2, "srp: what is printed: No space left on device\n")
    closed = run("bash", "-c", f"./srp diff {CHOIR} examples/hall-quiet/hall.txt | true; echo ${{PIPESTATUS[0]}}")
    assert (closed.stdout, closed.stderr) == ("141\n", "")
    none = run("bash", "-c", f"./srp sheet {CHOIR} >&-")
    assert (none.returncode, none.stderr) == (2, "srp: standard output is closed\n")


@pytest.mark.parametrize("stand_in, said", [
    ("true", "true printed 0 lines for 17 calls"),
    ("false", "false ended with status 1"),
    ("nowhere/at-all", "nowhere/at-all cannot be run: No such file or directory"),
    ("yes", "yes printed more than 17 lines for 17 calls"),
])
def test_a_program_that_is_no_bridge(both, stand_in, said):
    status, _, told = both("sheet", CHOIR, environment={"SRP_CALLS": stand_in})
    assert status == 2 and said in told and told.count("\n") == 1


def interrupted(*words, until):
    """Runs the command, interrupts it when something is so, and gives its status and what it said."""
    # these tests may run where interrupts are ignored, and what they start would ignore them too
    process = subprocess.Popen(["./srp", *map(str, words)], cwd=ROOT, stdout=subprocess.PIPE, stderr=subprocess.PIPE, text=True,
                               preexec_fn=lambda: signal.signal(signal.SIGINT, signal.SIG_DFL))
    try:
        for _ in range(600):
            if until():
                break
            time.sleep(0.05)
        process.send_signal(signal.SIGINT)
        printed, said = process.communicate(timeout=60)
        return process.returncode, printed, said
    finally:
        process.kill()


def test_an_interrupted_sweep_goes_on(srp, tmp_path):
    kept = tmp_path / "kept"
    # many orders: it is interrupted long before its end
    status, printed, said = interrupted("restarts", 100000, CHOIR, "--jobs", 1, "--resume", kept,
                                        until=lambda: kept.exists() and kept.read_text().count("\n") > 2)
    assert (status, printed) == (130, "") and "of 100000 orders are done" in said and f"--resume {kept} goes on" in said
    assert "Traceback" not in said
    head, *parts = map(json.loads, kept.read_text().splitlines())
    assert head["sweep"]["orders"] == 100000 and len(parts) >= 2
    assert "another sweep" in srp("restarts", 99, CHOIR, "--resume", kept, status=2)


def test_what_was_kept_is_not_made_again(srp, tmp_path, monkeypatch):
    from srp import programs

    kept = tmp_path / "kept"
    whole = srp("restarts", 120, CHOIR, "--jobs", 1, "--resume", kept)
    lines = kept.read_text().splitlines(keepends=True)
    assert len(lines) == 4
    # a batch is missing, and a line was cut
    kept.write_text("".join([lines[0], lines[3], lines[2][:40]]))
    made = []
    each_call = programs.each_call
    monkeypatch.setattr(programs, "each_call", lambda records, *rest: made.append(len(records)) or each_call(records, *rest))
    assert srp("restarts", 120, CHOIR, "--jobs", 1, "--resume", kept) == whole == srp("restarts", 120, CHOIR, "--resume", kept)
    assert len(made) == 2
    assert "no sweep that was begun" in srp("restarts", 120, CHOIR, "--resume", ROOT / CHOIR, status=2)


def test_interrupted_without_a_file(both, monkeypatch):
    from srp import inputs, restarts

    def interrupt(*_):
        raise KeyboardInterrupt

    monkeypatch.setattr(restarts, "batch", interrupt)
    status, printed, said = both("restarts", 100, CHOIR, "--jobs", 1)
    assert (status, printed) == (130, "")
    assert said == "srp: interrupted: 0 of 100 orders are done; with --resume FILE they would be kept\n"
    monkeypatch.setattr(inputs, "run", interrupt)
    assert both("sheet", CHOIR) == (130, "", "srp: interrupted\n")


def test_progress_without_a_terminal(capsys, monkeypatch):
    from srp import progress

    monkeypatch.setattr(progress, "BETWEEN_LINES", 0)
    with progress.progress("calls", 2000) as tell:
        tell(1500)
    assert capsys.readouterr().err == "srp: calls: 1,500 of 2,000\n"


def test_progress_in_a_terminal(tmp_path):
    out = tmp_path / "out.pcap"
    done = run("script", "-q", "-e", "-c", f"./srp capture {CHOIR} --out {out}", "/dev/null")
    assert done.returncode == 0 and f"calls of {CHOIR}" in done.stdout and os.path.exists(out)
