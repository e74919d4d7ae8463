"""What the commands share: how their inputs are read and what is said of them."""
import sys

import click

from srp import captures, files, inputs, packets, programs
from srp.faults import Fault
from srp.needs import need
from srp.progress import progress
from srp.reading import Reading, ports_of, source_of

FILE = click.Path(allow_dash=True)


def say(words):
    """Says something beside what is printed."""
    print(f"srp: {words}", file=sys.stderr)


def capture_options(command):
    """The options by which captures are read, settings replaced, and records told apart."""
    for option in (
        click.option("--calls", is_flag=True, help="Records are those of srpcalls, and not of srpsheet."),
        click.option("--ignore", multiple=True, metavar="SOURCE",
                     help="In a capture, frames of this source address or interface are left out."),
        click.option("--domain", is_flag=True, help="In a capture, each port first hears a neighbour in the bridge's domain."),
        click.option("--until", type=click.IntRange(0, captures.LAST_CLOCK), metavar="TIME",
                     help="Ends a capture with an advance to this time, in hundredths."),
        click.option("--settings", type=FILE, metavar="FILE", help="An input whose settings stand in for those of every FILE."),
        click.option("--port", "ports", multiple=True, metavar="SOURCE=PORT",
                     help="In a capture, frames of this source address or interface arrive on this port."),
    ):
        command = option(command)
    return command


def settings_in(path):
    """The settings of an input, which must be good ones."""
    octets = files.octets_of(path)
    if packets.is_capture(octets):
        raise Fault(f"--settings {path}: a capture has no settings")
    settings = inputs.of_octets(path, octets).settings
    rule = programs.broken_rule(settings)
    if rule:
        raise Fault(f"--settings {path}: {rule}")
    return settings


def reading_of(ports, settings, until, domain, ignore):
    octets = settings_in(settings) if settings else None
    return Reading(ports_of(ports), octets, until, domain, frozenset(map(source_of, ignore)))


def check_meaning(reading, calls, kinds):
    """Whether each option that is given means something for an input of these kinds."""
    if "capture" not in kinds and reading.of_captures:
        raise Fault(f"{reading.of_captures[0]} tells how a capture is read, and no input is one")
    if calls and "records" not in kinds:
        raise Fault("--calls tells how records are read, and no input is records")


def load_files(paths, calls, **options):
    """The input in each file, with what is said of it."""
    reading = reading_of(**options)
    found = [inputs.load(path, reading, calls) for path in paths]
    check_meaning(reading, calls, {given.kind for given in found})
    for given in found:
        say_notes(given)
    return found


def run_inputs(all_given):
    """What comes of each input. What was refused and where a reading stopped is said."""
    all_ran = []
    for given in all_given:
        with progress(f"calls of {given.name}", len(given.records)) as tell:
            all_ran.append(inputs.run(given, tell))
    for ran in all_ran:
        say_refused(ran.input, ran.refusals)
        if ran.stopped:
            say(f"{ran.input.name}: the reading stops early: {ran.reason}")
    return all_ran


def say_refused(given, refused):
    """Says which calls of an input were refused, each with where it comes from."""
    for refusal in refused:
        say(f"{given.name}: {refusal.words}")


def say_notes(given):
    """Says what the reader of an input should know."""
    for note in given.notes:
        say(f"warning: {note}")


def run_files(paths, **options):
    return run_inputs(load_files(paths, **options))


def console():
    """Where tables go: as wide as the terminal, or wide enough for every row where there is none."""
    return need("rich.console").Console(width=None if sys.stdout.isatty() else 160, highlight=False, markup=False)
