"""The command that makes the same frames in many orders."""
import json
import os

import click

from srp import cluster, files, orders, programs, restarts, results
from srp.kept import Kept
from srp.options import capture_options, load_files, say
from srp.progress import progress


def shard_of(_context, _parameter, word):
    """The two numbers of a shard I/N."""
    try:
        shard, shards = (int(part) for part in word.split("/"))
    except ValueError:
        raise click.BadParameter("two numbers with / between them are expected") from None
    if not 1 <= shard <= shards:
        raise click.BadParameter("shards are numbered from 1 to their number")
    return shard, shards


def print_results(sweep, found, names, is_json):
    """A line for each result; status 1 where there are several."""
    if not results.holds_premise(found):
        say("the theorem's premise does not hold: more than 64 streams are held and asked for (number 8), and past that the order"
            " may matter")
    if is_json:
        click.echo(json.dumps(results.as_object(sweep, found, names), indent=1))
    else:
        click.echo("\n".join(results.lines_of(sweep, found, names)))
    raise click.exceptions.Exit(len(found) > 1)


def merge(parts, is_json):
    lines = (line for part in parts for line in files.octets_of(part).decode(errors="replace").splitlines())
    print_results(*restarts.merged(lines), is_json)


# The parameters that mean something where parts are added up, and where an order is printed.
OF_MERGE = {"words", "is_merge", "is_json"}
OF_ORDER = {"words", "order", "seed", "ports", "settings", "until", "domain", "ignore", "calls"}


def check_meaning(option, meant):
    """Whether every parameter that is given means something beside an option."""
    context = click.get_current_context()
    for parameter in context.command.params:
        if context.get_parameter_source(parameter.name).name == "COMMANDLINE" and parameter.name not in meant:
            raise click.UsageError(f"{parameter.opts[0]} means nothing beside {option}")


def numbers_of(words):
    """The number of orders and the file."""
    if len(words) != 2 or not words[0].isdigit() or int(words[0]) < 1:
        raise click.UsageError("a number of orders, 1 or more, and a file are expected")
    return int(words[0]), words[1]


def check_order(order, count):
    """Whether an order is one of so many, and nothing else is asked for."""
    check_meaning("--order", OF_ORDER)
    if order >= count:
        raise click.UsageError(f"--order {order}: of {count} orders the last is {count - 1}")


def maker(scheduler, jobs):
    """What makes batches: the cluster of a scheduler, or runs side by side here."""
    if not scheduler:
        programs.make_ready()
        return lambda calls, sweep, parts: restarts.side_by_side(calls, sweep, parts, jobs)

    def on_cluster(calls, sweep, parts):
        numbers = [sweep.batches[part] for part in parts]
        for place, found in cluster.results_of(scheduler, restarts.on_worker, (calls, sweep.seed), numbers):
            yield parts[place], found

    return on_cluster


def results_of(given, sweep, resume, make):
    """The results of a sweep, with its progress. Where it is interrupted, it says what is done."""
    kept = Kept(sweep, resume)
    try:
        with progress(f"orders of {given.name}", len(sweep.numbers)) as tell:
            return restarts.sweep_results(given, sweep, kept, make, tell)
    except KeyboardInterrupt:
        done = sum(one.count for one in kept.results)
        how = f"the same command with --resume {resume} goes on" if resume else "with --resume FILE they would be kept"
        raise KeyboardInterrupt(f"interrupted: {done} of {len(sweep.numbers)} orders are done; {how}") from None


@click.command("restarts")
@click.argument("words", nargs=-1, required=True, metavar="N FILE | --merge PART..")
@click.option("--seed", default=0, show_default=True, help="Other seeds give other orders.")
@click.option("--jobs", default=os.cpu_count(), show_default="every core", type=click.IntRange(1), help="Runs side by side.")
@click.option("--shard", callback=shard_of, default="1/1", metavar="I/N", help="Makes the I-th of N parts, as a line for --merge.")
@click.option("--merge", "is_merge", is_flag=True, help="Adds up parts, from files or with - from standard input.")
@click.option("--order", type=click.IntRange(0), metavar="K", help="Prints the K-th order as a text, and makes none.")
@click.option("--resume", type=click.Path(dir_okay=False), metavar="FILE",
              help="Keeps what is done in FILE, and goes on from there.")
@click.option("--scheduler", metavar="ADDRESS", help="Makes the orders on the workers of this Dask scheduler.")
@click.option("--json", "is_json", is_flag=True, help="An object with all results.")
@capture_options
def restarts_command(words, is_merge, order, seed, shard, jobs, resume, scheduler, is_json, **options):
    """The same frames in N random orders that keep each port's own order: a line for each different result, and how often it
    came. Status 1 where there are several."""
    if is_merge:
        check_meaning("--merge", OF_MERGE)
        merge(words, is_json)
    count, file = numbers_of(words)
    if order is not None:
        check_order(order, count)
    [given] = load_files([file], **options)
    if order is not None:
        click.echo(orders.as_text(given, seed, order), nl=False)
        return
    orders.check(given)
    sweep = restarts.Sweep(restarts.digest(given), count, seed, *shard)
    found = results_of(given, sweep, resume, maker(scheduler, jobs))
    if sweep.shards > 1:
        click.echo(restarts.as_part(sweep, found, given.names))
    else:
        print_results(sweep, found, given.names, is_json)
