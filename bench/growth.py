"""How the time of check grows with states, inputs and rows, as tables for docs/SPEED.md.

    python3 bench/growth.py [--seed N]

Run from the root, as bench/check.py. The sets are `grown` of bench/sets.py: inputs of one size, a mode class of 4, and condition tables of 24 rows, each
with one more row in the mode table and one more assertion. The oracle's check in two sweeps stands beside; both must give the same answer."""
import argparse
import random

from sets import grown
from timing import RUNS, median
from words import call

CHECK = 6
PROGRAM = ["target/bin/scrprobe"]
FAST = ["tests/oracle/target/release/oracle", "check-fast"]

# Inputs, their size, tables.
GROWTHS = {
    "states (boolean inputs, 200 rows)": [(inputs, 2, 8) for inputs in range(8, 15)],
    "rows (65,536 states, 14 boolean inputs)": [(14, 2, tables) for tables in (2, 4, 8, 16)],
    "inputs (65,536 states, 200 rows)": [(14, 2, 8), (7, 4, 8), (2, 128, 8)],
}


def milliseconds(command, data, answer):
    seconds, runs = median(command, data, answer)
    return f"{seconds * 1000:,.1f}{'' if runs == RUNS else ' (one run)'}", seconds


def main():
    parser = argparse.ArgumentParser(description="How the time of check grows.")
    parser.add_argument("--seed", type=int, default=1)
    seed = parser.parse_args().seed
    for title, shapes in GROWTHS.items():
        print(f"Growing {title}:\n")
        print("| states | inputs | rows | words | steps | check, ms | steps a second | oracle, ms | ratio |")
        print("|---|---|---|---|---|---|---|---|---|")
        for inputs, size, tables in shapes:
            words, steps, answer = grown(random.Random(seed), inputs, size, tables)
            data = call(CHECK, words)
            (ours, seconds), (fast, oracle) = milliseconds(PROGRAM, data, answer), milliseconds(FAST, data, answer)
            states = int(answer.split()[1])
            told = [f"{states:,}", f"{inputs} of {size}", 25 * tables, f"{len(words):,}", f"{steps:,}", ours, f"{steps / seconds:,.0f}", fast]
            print(f"| {' | '.join(map(str, told))} | {oracle / seconds:.0f} |", flush=True)
        print()


main()
