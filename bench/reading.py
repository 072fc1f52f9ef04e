"""How long reading the largest set takes: a set of 4,096 words against one of a single word, by the probe's call `start`.

Run after `./build scrprobe`. The difference of the two is the reading of 4,095 words, with the bytes that carry them. With valgrind at hand
the instructions are counted too, which repeat exactly."""
import re
import shutil
import subprocess
import time

from words import CONDITION_TABLE, CONTROLLED, EVENT_TABLE, MODE_CLASS, MODE_TABLE, MONITORED
from words import assertion, both, call, either, equals, no, rises, row, table, variable

PROBE = "target/bin/scrprobe"
RUNS = 1000


def tree(words):
    """A condition of so many words."""
    if words == 1:
        return equals(0, 1)
    if words == 2:
        return no(equals(1, 0))
    left = (words - 1) // 2
    return both(tree(left), tree(words - 1 - left))


def event_row(mode, value, i):
    return row(mode, value, rises(equals(i % 8, 1), both(equals((i + 1) % 8, 1), equals((i + 2) % 8, 0))))


def condition_row(mode, value, i):
    return row(mode, value, both(equals(i % 8, i // 8 % 2), either(equals((i + 3) % 8, 1), equals((i + 5) % 8, 0))))


def largest_set():
    """Eight inputs, a mode class with 64 rows, eleven outputs with 20 rows each, and assertions up to 4,096 words."""
    words = [variable(MONITORED, 2)] * 8 + [variable(MODE_CLASS, 4)] + [variable(CONTROLLED, 2)] * 11
    words.append(table(MODE_TABLE, 8, 8))
    for i in range(64):
        words += event_row(i % 4, (i + 1) % 4, i)
    for v in range(9, 20):
        words.append(table(EVENT_TABLE if v % 2 else CONDITION_TABLE, v, 8))
        for i in range(20):
            words += event_row(i % 4, i % 2, i) if v % 2 else condition_row(i % 4, i % 2, i)
    while len(words) < 4096:
        words += assertion(tree(min(200, 4096 - len(words) - 1)))
    return words


def seconds(data):
    best = []
    for _ in range(5):
        began = time.perf_counter()
        for _ in range(RUNS // 5):
            subprocess.run([PROBE], input=data, stdout=subprocess.DEVNULL, check=True)
        best.append((time.perf_counter() - began) / (RUNS // 5))
    return sorted(best)[2]


def instructions(data):
    told = subprocess.run(
        ["valgrind", "--tool=callgrind", "--callgrind-out-file=/dev/null", PROBE], input=data, capture_output=True, check=True
    ).stderr.decode()
    return int(re.search(r"refs:\s+([\d,]+)", told).group(1).replace(",", ""))


large, small = call(1, largest_set()), call(1, [variable(MONITORED, 2)])
print("answer:", subprocess.run([PROBE], input=large, capture_output=True, check=True).stdout.decode().strip())
print(f"reading 4,096 words: {(seconds(large) - seconds(small)) * 1e6:.0f} microseconds (median of five, {RUNS} runs)")
if shutil.which("valgrind"):
    print(f"instructions: {instructions(large) - instructions(small):,}")
