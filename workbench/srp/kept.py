"""What a sweep has done, in a file that a later run goes on from: a line for the sweep, then one for each batch of orders."""
import json
import os
from dataclasses import asdict

from srp.faults import Fault
from srp.restarts import BATCH
from srp.results import Result


class Kept:
    """The results of the batches that are done, and which are left. Without a file they are kept for this run alone."""

    def __init__(self, sweep, path=None):
        self.path, self.results, self.left = path, [], list(range(len(sweep.batches)))
        self.head = {"sweep": asdict(sweep), "batch": BATCH}
        if path and os.path.exists(path):
            self.read()
        elif path:
            self.append(self.head)

    def append(self, line):
        """Adds a line, which is on the disk when this ends."""
        try:
            with open(self.path, "a", encoding="utf-8") as file:
                file.write(json.dumps(line) + "\n")
        except OSError as fault:
            raise Fault(f"--resume {self.path}: {fault.strerror}") from None

    def read(self):
        """Takes what the file has. A last line that was cut is made anew."""
        try:
            with open(self.path, encoding="utf-8") as file:
                lines = [line for line in file if line.endswith("\n")]
            head, *parts = map(json.loads, lines)
            if head != self.head:
                raise Fault(f"--resume {self.path}: it has another sweep; input, orders, seed and shard must be the same")
            for part in parts:
                self.left.remove(part["place"])
                self.results += [Result(**result) for result in part["results"]]
            with open(self.path, "w", encoding="utf-8") as file:
                file.writelines(lines)
        except OSError as fault:
            raise Fault(f"--resume {self.path}: {fault.strerror}") from None
        except (ValueError, KeyError, TypeError):
            raise Fault(f"--resume {self.path}: it has no sweep that was begun") from None

    def add(self, place, results):
        """Keeps the results of a batch."""
        self.left.remove(place)
        self.results += results
        if self.path:
            self.append({"place": place, "results": [asdict(result) for result in results]})
