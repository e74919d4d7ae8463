"""The programs that the workbench runs: srpcalls, and the tool that turns a text into records."""
import os
import shlex
import subprocess
import sys
import threading
from itertools import islice
from pathlib import Path

from srp.faults import Fault
from srp.names import Names

ROOT = Path(os.environ.get("SRP_ROOT", Path(__file__).resolve().parents[2]))


PROVED_CALLS = [str(ROOT / "tests" / "program"), "srpcalls"]
TEXT_TOOL = str(ROOT / "tests" / "reference")


def calls_command():
    """The command that makes many calls at once. SRP_CALLS, where it is set, stands in for the proved program."""
    stand_in = os.environ.get("SRP_CALLS")
    return shlex.split(stand_in) if stand_in else PROVED_CALLS


def started(command, **options):
    """The process of a command."""
    try:
        return subprocess.Popen(command, **options)
    except OSError as fault:
        raise Fault(f"{command[0]} cannot be run: {fault.strerror}") from None


def run(command, octets, errors=None):
    """What a command prints, from these octets on its standard input. What it says of errors is passed on; where they are piped,
    only once it has ended well."""
    process = started(command, stdin=subprocess.PIPE, stdout=subprocess.PIPE, stderr=errors)
    with process:
        printed, said = process.communicate(octets)
    said = (said or b"").decode(errors="replace")
    if process.returncode != 0:
        raise Fault(said.strip() or f"{' '.join(command)} ended with status {process.returncode}")
    sys.stderr.write(said)
    return printed


def hand_over(file, octets):
    """Writes all octets to a process that may end before it has read them."""
    try:
        with file:
            file.write(octets)
    except BrokenPipeError:
        pass


def printed_lines(command, octets):
    """The lines that a command prints, as it prints them, from these octets on its standard input."""
    with started(command, stdin=subprocess.PIPE, stdout=subprocess.PIPE) as process:
        writer = threading.Thread(target=hand_over, args=(process.stdin, octets), daemon=True)
        writer.start()
        try:
            for line in process.stdout:
                yield line.decode(errors="replace")
        except BaseException:
            process.kill()
            raise
        writer.join()
    if process.returncode != 0:
        raise Fault(f"{' '.join(command)} ended with status {process.returncode}")


def make_ready():
    """Has the program proved and built where it is missing or old, before it is run side by side."""
    run(calls_command(), b"")


def each_call(all_records, tell=None, command=None):
    """The lines that srpcalls, or another command, prints for call records, as it prints them, one for each that is answered; tell
    is told how many are made."""
    command, printed = command or calls_command(), 0
    wanted = sum(record.is_answered for record in all_records)
    lines = printed_lines(command, b"".join(record.octets for record in all_records))
    for line in islice(lines, wanted):
        yield line.rstrip("\n")
        printed += 1
        if tell:
            tell(1)
    is_more = next(lines, None) is not None
    lines.close()
    if is_more or printed != wanted:
        said = f"more than {wanted}" if is_more else printed
        raise Fault(f"{' '.join(command)} printed {said} lines for {wanted} calls, where srpcalls prints one for each")


def calls(all_records, tell=None, command=None):
    """All of these lines."""
    return list(each_call(all_records, tell, command))


def records_of_text(text, kind, *options):
    """The records of a text as in examples/, of any length; kind is sheet or calls. Its warnings are passed on, but for the option
    quiet."""
    return run([TEXT_TOOL, "records", kind, "long", *options], text, subprocess.PIPE)


def index_of_text(text, kind):
    """The names of a text's streams; and where the octets of each line begin in its records, with the line."""
    names, begins = {}, []
    for line in run([TEXT_TOOL, "index", kind], text, subprocess.PIPE).decode().splitlines():
        what, first, second = line.split(" ")
        if what == "stream":
            names.setdefault(first, second)
        else:
            begins.append((int(first), int(second)))
    return Names(names), begins


def broken_rule(settings):
    """The rule that settings break; nothing where they are accepted."""
    return run([TEXT_TOOL, "rule"], settings).decode().strip()
