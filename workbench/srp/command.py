"""The commands that show what comes of inputs, and the group of all."""
import json
import sys

import click

from srp import difference, explain, layout, page, sheet, tables
from srp.command_capture import capture_command
from srp.command_history import history_command
from srp.command_restarts import restarts_command
from srp.options import FILE, capture_options, console, load_files, run_files, say_refused


@click.group(context_settings={"help_option_names": ["-h", "--help"]})
def commands():
    """A workbench over the proved bridge. FILE is a text as in examples/, records, or a capture (pcap, pcapng), packed by gzip or
    not; - is standard input."""


commands.add_command(capture_command)
commands.add_command(history_command)
commands.add_command(restarts_command)


def end(is_stopped):
    """Ends with 1 where something stopped early or differs."""
    raise click.exceptions.Exit(1 if is_stopped else 0)


@commands.command("sheet")
@click.argument("files", nargs=-1, required=True, type=FILE, metavar="FILE..")
@click.option("--csv", "form", flag_value="csv", help="One row for each line of the sheets.")
@click.option("--json", "form", flag_value="json", help="A list with an object for each input.")
@click.option("--html", "form", flag_value="html", help="A page that stands by itself.")
@capture_options
def sheet_command(files, form, **options):
    """Prints the sheet of each input. Status 1 where the reading of one stops early."""
    all_ran = run_files(files, **options)
    if form == "csv":
        sheet.write_csv(all_ran, sys.stdout)
    elif form == "json":
        click.echo(sheet.as_json(all_ran))
    elif form == "html":
        click.echo(page.page(all_ran), nl=False)
    else:
        for ran in all_ran:
            click.echo("\n".join([f"==> {ran.input.name} <=="] * (len(files) > 1) + list(sheet.plain(ran))))
    end(any(ran.stopped for ran in all_ran))


@commands.command("table")
@click.argument("file", type=FILE)
@capture_options
def table_command(file, **options):
    """Prints the table that an input leaves, in words. Status 1 where its reading stops early."""
    [ran] = run_files([file], **options)
    tables.show(ran, console())
    end(ran.stopped)


@commands.command("diff")
@click.argument("first", type=FILE)
@click.argument("second", type=FILE)
@click.option("--decided", is_flag=True, help="Compares columns, codes, Listeners, entries and totals alone.")
@click.option("--json", "is_json", is_flag=True, help="A list with an object for each field that differs.")
@capture_options
def diff_command(first, second, decided, is_json, **options):
    """Shows every field that differs between the tables of two inputs. Status 1 where one does."""
    left, right = run_files([first, second], **options)
    for ran in (left, right):
        ran.input.check_end()
    found = difference.between(left.table, right.table, decided)
    names = left.input.names.joined(right.input.names)
    if is_json:
        click.echo(json.dumps([difference.as_object(one, names) for one in found], indent=1))
    elif not found:
        click.echo("no difference")
    else:
        rows = [(one.place.words(names), one.field, one.first, one.second) for one in found]
        console().print(tables.grid(("where", "what", first, second), rows))
    end(found)


@commands.command("why")
@click.argument("file", type=FILE)
@click.argument("port", type=click.IntRange(1, layout.PORTS))
@click.argument("stream")
@click.option("--json", "is_json", is_flag=True, help="An object with all of it.")
@capture_options
def why_command(file, port, stream, is_json, **options):
    """Tells why STREAM, a StreamID or a name of the text, has its column on PORT: the step that decides, what it means, and for
    code 1 who goes before and how much is missing."""
    [given] = load_files([file], **options)
    given.check_end()
    found = explain.ask(given, port, stream)
    say_refused(given, found.ran.refusals)
    click.echo(json.dumps(explain.as_object(found), indent=1) if is_json else "\n".join(explain.lines_of(found)))
