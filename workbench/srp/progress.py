"""How far a long run is, on standard error: a bar in a terminal, and elsewhere a line now and then."""
import sys
import time
from contextlib import contextmanager

from srp.needs import need

# Seconds between two lines where there is no terminal.
BETWEEN_LINES = 10


class Lines:
    """A line now and then."""

    def __init__(self, words, total):
        self.words, self.total, self.done, self.said = words, total, 0, time.monotonic()

    def __call__(self, more):
        self.done += more
        if time.monotonic() - self.said >= BETWEEN_LINES:
            self.said = time.monotonic()
            print(f"srp: {self.words}: {self.done:,} of {self.total:,}", file=sys.stderr, flush=True)


@contextmanager
def progress(words, total):
    """What is to be told how much more is done, of so many."""
    if not sys.stderr.isatty():
        yield Lines(words, total)
        return
    rich = need("rich.progress")
    columns = [rich.TextColumn("{task.description}"), rich.BarColumn(), rich.MofNCompleteColumn(), rich.TimeRemainingColumn()]
    with rich.Progress(*columns, console=need("rich.console").Console(stderr=True), transient=True) as shown:
        task = shown.add_task(words, total=total)
        yield lambda more: shown.advance(task, more)
