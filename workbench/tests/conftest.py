"""What the tests share: the command, within this process and as a user runs it, the package's place, and examples."""
import io
import os
import shlex
import subprocess
import sys
from pathlib import Path

import pytest

ROOT = Path(__file__).resolve().parents[2]
sys.dont_write_bytecode = True
sys.path.insert(0, str(ROOT / "workbench"))

CHOIR = "examples/choir/low-ports-first.txt"


def run(*words, environment=None, given=None, **options):
    """Runs a command in the root, and gives what it printed and its status."""
    return subprocess.run(list(map(str, words)), cwd=ROOT, input=given, capture_output=True, text=True, check=False,
                          env=os.environ | (environment or {}), **options)


@pytest.fixture(scope="session", autouse=True)
def proved_once():
    """The sources are summed once for all tests, and not before each of many hundred runs: within this process the program is run
    by the command with which tests/program ends."""
    from srp import programs

    done = run("bash", "-x", "tests/program", "srpcalls", given="", environment={"PS4": "+ "})
    *_, last = (line for line in done.stderr.splitlines() if line.startswith("+ exec "))
    programs.PROVED_CALLS[:] = shlex.split(last.removeprefix("+ exec "))


@pytest.fixture
def both(monkeypatch, capfd):
    """The command, within this process: both(words..) gives its status, what it prints and what it says."""
    from srp.start import main

    def call(*words, environment=None, given=""):
        monkeypatch.chdir(ROOT)
        monkeypatch.setattr(sys, "argv", ["srp", *map(str, words)])
        monkeypatch.setattr(sys, "stdin", io.TextIOWrapper(io.BytesIO(given if isinstance(given, bytes) else given.encode())))
        for name, value in (environment or {}).items():
            monkeypatch.setenv(name, value)
        with pytest.raises(SystemExit) as ended:
            main()
        for name in environment or {}:
            monkeypatch.delenv(name)
        return ended.value.code, *capfd.readouterr()

    return call


@pytest.fixture
def srp(both):
    """The same: srp(words..) gives what it prints, or says where the status is 2, and fails where it is not the one expected."""

    def call(*words, status=0, **options):
        ended, printed, said = both(*words, **options)
        assert ended == status, said
        return printed if status != 2 else said

    return call


@pytest.fixture
def written(tmp_path):
    """Files: written(name, content) gives its path."""

    def write(name, content):
        path = tmp_path / name
        path.write_bytes(content if isinstance(content, bytes) else content.encode())
        return path

    return write
