"""The command that shows what each advance of inputs left."""
import sys

import click

from srp import cluster, history, layout, pages, plots
from srp.faults import Fault
from srp.options import FILE, capture_options, load_files, say_refused
from srp.progress import progress
from srp.words import seconds


def choice_of(ports, streams, names):
    """The ports and streams that are shown of an input."""
    return history.Choice(frozenset(ports), frozenset(names.find(word) for word in streams))


def port_number(word):
    if not 1 <= int(word) <= layout.PORTS:
        raise Fault(f"--port {word}: ports are numbered from 1 to {layout.PORTS}")
    return int(word)


def split_ports(words):
    """Which of the words name a source's port, and which the ports that are shown."""
    return [word for word in words if not word.isdigit()], [port_number(word) for word in words if word.isdigit()]


def moments_here(given, choice):
    """The moments of an input, as it is run, with its progress and what is refused."""
    refused = []
    with progress(f"calls of {given.name}", sum(1 for _ in history.with_tables(given))) as tell:
        yield from history.moments(given, choice, tell, refused=refused)
    say_refused(given, refused)


def histories_here(all_given, choices):
    """The name and moments of each input, one after the other."""
    for given, choice in zip(all_given, choices):
        yield given.name, moments_here(given, choice)


def histories_on(scheduler, all_given, choices):
    """The same, each input on some worker."""
    found = {}
    with progress("inputs", len(all_given)) as tell:
        for place, (moments, refused) in cluster.results_of(scheduler, history.on_worker, None, list(zip(all_given, choices))):
            found[place] = moments
            say_refused(all_given[place], refused)
            tell(1)
    return [(given.name, found[place]) for place, given in enumerate(all_given)]


def view(name, found):
    """What the page shows of an input."""
    return {"name": name, "advances": len(found), "plots": plots.plots(found), "changes": list(history.changes(found)),
            "first": seconds(found[0].time) if found else "", "last": seconds(found[-1].time) if found else ""}


def show(histories, form, is_several):
    """Prints histories in a form; in none of them, what each advance changed."""
    if form == "csv":
        history.write_csv(histories, sys.stdout)
    elif form == "json":
        click.echo(history.as_json(histories))
    elif form == "html":
        views = [view(name, list(found)) for name, found in histories]
        click.echo(pages.made("history.html", {"seconds": seconds}, histories=views), nl=False)
    else:
        for name, found in histories:
            click.echo("\n".join([f"==> {name} <=="] * is_several + [change.words for change in history.changes(found)]))


@click.command("history")
@click.argument("files", nargs=-1, required=True, type=FILE, metavar="FILE..")
@click.option("--csv", "form", flag_value="csv", help="A row for each advance, port and stream, and one for each port's totals.")
@click.option("--json", "form", flag_value="json", help="The same as a list with an object for each input.")
@click.option("--html", "form", flag_value="html", help="A page that stands by itself, with plots.")
@click.option("--stream", "streams", multiple=True, metavar="STREAM", help="Shows this stream alone, by StreamID or name.")
@click.option("--scheduler", metavar="ADDRESS", help="Runs each FILE on some worker of this Dask scheduler.")
@capture_options
def history_command(files, form, streams, scheduler, ports, **options):
    """Shows what each accepted advance left; without --csv, --json or --html what each changed. Here --port N shows that port
    alone, beside what --port SOURCE=PORT tells of a capture."""
    sources, shown = split_ports(ports)
    all_given = load_files(files, ports=sources, **options)
    choices = [choice_of(shown, streams, given.names) for given in all_given]
    for given in all_given:
        given.check_end()
    make = histories_on(scheduler, all_given, choices) if scheduler else histories_here(all_given, choices)
    show(make, form, len(files) > 1)
