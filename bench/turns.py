"""How check's time, and a run's, differ between two builds: both answer by turns, so that the machine's changes of speed meet them alike.

    python3 bench/turns.py BEFORE [SET...] [--seed N] [--program COMMAND]

Run from the root, after `./build scrprobe` here and in the folder of the build before, whose target/bin/scrprobe is BEFORE. For each set: the least and,
in brackets, the median time of both, and of either the second divided by the first. The sets are those of bench/sets.py, made by seed."""
import argparse
import random
import statistics
import subprocess

from calls import EVENTS, RUN, walk
from check import CHECK
from sets import NAMED_ONLY, SETS
from timing import LONG, timed
from words import call

TURNS = 25
LONG_TURNS = 3  # where a run takes more than ten seconds


def times(before, after, data):
    """The seconds of both, turn by turn. They must give the same answer."""
    answer = subprocess.run(before, input=data, capture_output=True, check=True).stdout.decode().removesuffix("\n")
    first, second = [], []
    while len(first) < (LONG_TURNS if max(first, default=0) > LONG else TURNS):
        turn = [(first, before), (second, after)]
        for seconds, command in turn if len(first) % 2 == 0 else reversed(turn):
            seconds.append(timed(command, data, answer))
    return first, second


def line(name, before, after):
    least, middle = (min(before), min(after)), (statistics.median(before), statistics.median(after))
    told = [f"{a * 1000:10,.1f} ({b * 1000:,.1f})" for a, b in zip(least, middle)]
    print(f"{name:12} {told[0]:>24} {told[1]:>24}    {least[1] / least[0]:.2f}, {middle[1] / middle[0]:.2f}", flush=True)


def main():
    parser = argparse.ArgumentParser(description="How check's time differs between two builds.")
    parser.add_argument("before", metavar="BEFORE")
    parser.add_argument("sets", nargs="*", metavar="SET", help="of " + ", ".join([*SETS, *NAMED_ONLY]))
    parser.add_argument("--seed", type=int, default=1)
    parser.add_argument("--program", default="target/bin/scrprobe")
    options = parser.parse_args()
    builds = options.before.split(), options.program.split()
    print(f"{'set':12} {'before, ms':>24} {'after, ms':>24}    after / before")
    for name in options.sets or [*SETS, *NAMED_ONLY]:
        words = {**SETS, **NAMED_ONLY}[name](random.Random(options.seed))[0]
        line(name, *times(*builds, call(CHECK, words)))
    words = SETS["full"](random.Random(options.seed))[0]
    line("a run", *times(*builds, call(RUN, words, [0, 0, EVENTS, *walk(words, options.seed)])))


if __name__ == "__main__":
    main()
