"""The command that turns captures into texts, and inputs into captures."""
from dataclasses import replace

import click

from srp import captures, files, frames, inputs, packets
from srp.faults import Fault
from srp.options import FILE, capture_options, check_meaning, reading_of, say, say_notes, say_refused
from srp.progress import progress
from srp.reading import OWN_PORTS


def write_text(out, text):
    """Prints a text, or writes it to a file."""
    if out is None or out == "-":
        click.echo(text, nl=False)
        return
    with files.written(out) as file:
        file.write(text.encode())


def write_capture(given, reading, out, is_received):
    """Writes the frames of an input, or what its ports write."""
    say_notes(given)
    take, refused = frames.received if is_received else frames.written, []
    with progress(f"calls of {given.name}", len(given.records)) as tell:
        found = take(given, tell, refused)
    say_refused(given, refused)
    for note in frames.leave_all_notes(found) if not is_received and not frames.has_writes(given) else []:
        say(f"warning: {given.name}: {note}")
    frames.write(out, found, reading.ports)


# What is written where an option means something.
MEANINGS = {"received": "capture", "named": "text", "words": "text"}


def check_options(written, **given):
    """Whether the options that are given mean something for what is written, a text or a capture."""
    for option, is_given in given.items():
        if is_given and MEANINGS[option] != written:
            raise Fault(f"--{option} means something where a {MEANINGS[option]} is written, and this is a {written}")


@click.command("capture")
@click.argument("file", type=FILE)
@click.option("--out", "-o", type=click.Path(), help="The file to write: a capture where it ends in .pcap or .pcapng, or a text.")
@click.option("--received", is_flag=True, help="Writes the frames of the input, and not what each port writes.")
@click.option("--named", is_flag=True, help="Names the packet of each frame in a comment.")
@click.option("--words", is_flag=True, help="Writes a frame's Messages in words, or in comments where the text format has none.")
@capture_options
def capture_command(file, out, received, named, words, calls, **options):
    """Turns a capture's MSRP and MMRP frames into a text; or, from any input, writes a capture of what each port writes: by the
    input's writes, or where it has none after each advance, as a product does."""
    is_capture = bool(out) and out.endswith((".pcap", ".pcapng"))
    check_options("capture" if is_capture else "text", received=received, named=named, words=words)
    if out:
        files.check_apart(file, out)
    octets, reading = files.octets_of(file), reading_of(**options)
    if is_capture:
        given = inputs.of_octets(file, octets, reading, calls)
        # the ports' addresses are those of what is written too
        check_meaning(replace(reading, ports=OWN_PORTS), calls, {given.kind})
        write_capture(given, reading, out, received)
        return
    files.check_octets(file, octets)
    if not packets.is_capture(octets):
        raise Fault(f"{file} is no capture; to write one of what its ports write, give --out with a name in .pcap or .pcapng")
    captured = captures.read(file, octets, reading)
    say_notes(captured)
    write_text(out, captures.text_of(captured, named, words))
