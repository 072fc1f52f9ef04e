"""Spin on a set: its translation to C, the compiler, and the search, each timed alone."""
import re
import shutil
import statistics
import sys
import tempfile

from promela import promela
from timing import LONG, RUNS, seconds_of

COMPILER = "gcc -O2 -w -DSAFETY -DNOREDUCE -DMEMLIM=4096 -o pan pan.c".split()
DEEP = ["-m10000000", "-w22"]
EVERY_ERROR = "-c0"  # goes on after an error, to the end of the search


class Search:
    """Times in seconds; `states` are those stored by Spin, with one or two for the start. A first search, not timed, tells how deep it goes and how many
    states it meets; those timed have just room for that, since Spin takes milliseconds to set more aside."""

    def __init__(self, words, shape, options=()):
        with tempfile.TemporaryDirectory() as folder:
            with open(f"{folder}/set.pml", "w") as file:
                file.write(promela(words, shape))
            self.spin = timed(["spin", "-a", "set.pml"], folder)[0]
            self.compiler = timed(COMPILER, folder)[0]
            self.tell(timed(["./pan", *DEEP, *options], folder)[1])
            room = [f"-m{self.depth + 100}", f"-w{self.states.bit_length() + 1}"]
            seconds = []
            while len(seconds) < RUNS and (not seconds or seconds[0] <= LONG):
                took, output = timed(["./pan", *room, *options], folder)
                seconds.append(took)
                self.tell(output)
        self.seconds, self.runs = statistics.median(seconds), len(seconds)

    def tell(self, output):
        def number(pattern):
            return round(float(re.search(pattern, output).group(1)))

        self.depth, self.errors = number(r"depth reached (\d+)"), number(r"errors: (\d+)")
        self.states, self.transitions = number(r"(\S+) states, stored"), number(r"(\S+) transitions")
        if "too small" in output or "Search not completed" in output and self.errors == 0:
            sys.exit(f"Spin's search is not complete: {output}")


def timed(command, folder):
    seconds, done = seconds_of(command, cwd=folder)
    if done.returncode != 0:
        sys.exit(f"{' '.join(command)}: {done.stdout.decode()}{done.stderr.decode()}")
    return seconds, done.stdout.decode()


def installed():
    return shutil.which("spin") is not None and shutil.which("gcc") is not None
