"""How long calls take beside check: a run of 4,096 events on a set of 4,096 words, and one step of a host in C on the shift's set.

    python3 bench/calls.py [--seed N]

Run from the root, after `./build` and `cargo build --offline --release` in tests/oracle; bench/run does
all. The sets are `full` and `shift` of bench/sets.py. The run's answers must be the oracle's, every state of it, and the host's last state that of the run."""
import argparse
import random
import statistics
import subprocess
import tempfile

from promela import Set
from sets import SETS
from timing import RUNS, seconds_of
from words import call, event

START, RUN = 1, 3
EVENTS = 4096
REPEATS = 50  # of a program that takes milliseconds
ROUNDS = 5  # of the host through all events
ORACLE = "tests/oracle/target/release/oracle"


def walk(words, seed):
    """Events that are enabled one after the other from state 0: each gives an input another value than it has."""
    choose, read = random.Random(seed), Set(words)
    values, events = {name: 0 for name in read.monitored}, []
    while len(events) < EVENTS:
        name = choose.choice(read.monitored)
        values[name] = choose.choice([value for value in range(read.sizes[name]) if value != values[name]])
        events.append(event(name, values[name]))
    return events


def in_bytes(words):
    return b"".join(word.to_bytes(4, "little") for word in words)


def answer(command, data):
    return subprocess.run(command, input=data, capture_output=True, check=True).stdout


def same_answer(command, oracle, data):
    given = answer(command, data)
    if given != answer([ORACLE, oracle], data):
        raise SystemExit(f"{' '.join(command)} and the oracle differ")
    return given


def seconds(command, data):
    """The median of five means."""
    return statistics.median(statistics.mean(seconds_of(command, input=data)[0] for _ in range(REPEATS)) for _ in range(RUNS))


def run_times(words, events):
    run, start = call(RUN, words, [0, 0, len(events), *events]), call(START, words)
    same_answer(["target/bin/scrprobe"], "probe", run)
    whole, read = seconds(["target/bin/scrprobe"], run), seconds(["target/bin/scrprobe"], start)
    print(f"a run of {len(events):,} events on a set of {len(words):,} words, by scrprobe: {whole * 1000:.2f} ms")
    print(f"    of which reading the set, with the program's start: {read * 1000:.2f} ms")
    print(f"    an event: {(whole - read) / len(events) * 1e6:.2f} microseconds")
    print(f"    the same by the oracle: {seconds([ORACLE, 'probe'], run) * 1000:.2f} ms")


def program_times(words, events):
    """The oracle's program would check naively, for a minute, so the run's last state is compared with that of its probe."""
    took, done = [], None
    for _ in range(RUNS):
        spent, done = seconds_of(["target/bin/scrcheck"], input=in_bytes(words + events))
        took.append(spent)
    lines = done.stdout.decode().splitlines()
    states = answer([ORACLE, "probe"], call(RUN, words, [0, 0, len(events), *events])).decode().splitlines()[1].split()
    if not lines[0].startswith("PASS") or [line.split()[3] for line in lines[1:]] != states:
        raise SystemExit("scrcheck and the oracle differ")
    print(f"check, run and {len(events):,} lines on the same, by scrcheck: {statistics.median(took) * 1000:.1f} ms")


def step_time(words, events):
    with tempfile.TemporaryDirectory() as folder:
        for name, content in (("set", words), ("events", events)):
            with open(f"{folder}/{name}", "wb") as file:
                file.write(in_bytes(content))
        build = ["gcc", "-std=gnu11", "-O2", "-Wall", "-Iinclude", "bench/step.c", "target/staticlib/libscrhost.a", "-o", f"{folder}/step"]
        subprocess.run(build, check=True)
        told = [answer([f"{folder}/step", f"{folder}/set", f"{folder}/events", str(ROUNDS)], b"").split() for _ in range(RUNS)]
    last = answer([ORACLE, "probe"], call(RUN, words, [0, 0, len(events), *events])).split()[1]
    if any(state != last for state, _ in told):
        raise SystemExit("the host and the oracle differ")
    nanoseconds = statistics.median(int(time) for _, time in told)
    print(f"one scr_step on a set of {len(words):,} words: {nanoseconds / 1000:.1f} microseconds, the reading of the set in it")


def main():
    parser = argparse.ArgumentParser(description="How long a run and a host's step take.")
    parser.add_argument("--seed", type=int, default=1)
    seed = parser.parse_args().seed
    full, shift = (SETS[name](random.Random(seed))[0] for name in ("full", "shift"))
    run_times(full, walk(full, seed))
    program_times(full, walk(full, seed))
    for words in (shift, full):
        step_time(words, walk(words, seed))


if __name__ == "__main__":
    main()
