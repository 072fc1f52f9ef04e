"""How long check takes on sets of 65,536 states: the probe's call 6 beside two checks of the oracle, in two sweeps and naive, and beside Spin.

    python3 bench/check.py [SET...] [--seed N] [--program COMMAND] [--fast COMMAND] [--naive COMMAND] [--without NAME...]

Run from the root, after `./build scrprobe` and `cargo build --offline --release` in tests/oracle; bench/run does all. The sets are those of
bench/sets.py, made by seed. Every checker must give the answer that a set is built for; of Spin, whether there is an error. The naive check
is the oracle's plain one: all states, then all steps, then all steps again for each assertion, with every row judged."""
import argparse
import random
import shutil
import sys

import spin
from promela import SHAPES
from sets import NAMED_ONLY, SETS
from timing import RUNS, median
from words import call

CHECK = 6


def line(name, seconds, ours, steps, runs, what="steps", more=""):
    once = "" if runs == RUNS else ", one run"
    ratio = f"{seconds / ours:10,.1f}"
    print(f"    {name:14} {seconds * 1000:12,.1f} ms {steps / seconds:16,.0f} {what} a second {ratio} times ours{once}{more}", flush=True)


def compare(name, seed, commands, shapes):
    words, steps, answer = {**SETS, **NAMED_ONLY}[name](random.Random(seed))
    data = call(CHECK, words)
    print(f"{name}: {len(words):,} words, {steps:,} steps, {answer}", flush=True)
    ours = None
    for who, command in commands.items():
        seconds, runs = median(command, data, answer)
        ours = ours or seconds
        line(who, seconds, ours, steps, runs)
    refused = answer.startswith("REFUSE")
    for shape in shapes:
        compare_spin(words, shape, refused, ours)
        if refused:
            compare_spin(words, shape, refused, ours, to_the_end=True)


def compare_spin(words, shape, refused, ours, to_the_end=False):
    search = spin.Search(words, shape, [spin.EVERY_ERROR] if to_the_end else [])
    if (search.errors > 0) != refused:
        sys.exit(f"Spin, {shape}: {search.errors} errors")
    stops = "" if not refused else ", to the end" if to_the_end else ", to its first error"
    more = f"{stops} ({search.states:,} states; before it spin -a {search.spin:.1f} s, gcc {search.compiler:.1f} s)"
    line(f"Spin, {shape}", search.seconds, ours, search.transitions, search.runs, "transitions", more)


def main():
    parser = argparse.ArgumentParser(description="How long check takes.")
    parser.add_argument("sets", nargs="*", metavar="SET", help="of " + ", ".join([*SETS, *NAMED_ONLY]))
    parser.add_argument("--seed", type=int, default=1)
    parser.add_argument("--program", default="target/bin/scrprobe")
    parser.add_argument("--fast", default="tests/oracle/target/release/oracle check-fast")
    parser.add_argument("--naive", default="tests/oracle/target/release/oracle probe")
    parser.add_argument("--without", nargs="*", default=[], choices=["fast", "naive", "spin"], help="leave these out")
    options = parser.parse_args()
    unknown = [name for name in options.sets if name not in SETS and name not in NAMED_ONLY]
    if unknown:
        parser.error(f"no such set: {' '.join(unknown)}")
    commands = {"ours": options.program.split(), "oracle, fast": options.fast.split(), "oracle, naive": options.naive.split()}
    commands = {who: command for who, command in commands.items() if who.split()[-1] not in options.without}
    for command in commands.values():
        if shutil.which(command[0]) is None:
            parser.error(f"{command[0]} is not there: run bench/run")
    shapes = SHAPES if "spin" not in options.without else ()
    if shapes and not spin.installed():
        print("Spin is not installed (Debian's package spin, and gcc), so it is left out.")
        shapes = ()
    for name in options.sets or SETS:
        compare(name, options.seed, commands, shapes)


if __name__ == "__main__":
    main()
