"""Inputs of the program whose last words show, since each event has its line: the stored one, the biggest, and one with the longest output; and two
sets, Set A and one of the deepest formulas. Called by itself, writes the stored one:

    python3 tests/program/inputs.py > crates/scrcheck/stdin
    tests/oracle/target/release/oracle program < crates/scrcheck/stdin > crates/scrcheck/stdout"""
import os
import sys

# Its `common` knows the places, and puts explain/ and bench/ within reach.
sys.path.insert(0, os.path.join(os.path.dirname(os.path.dirname(os.path.abspath(__file__))), "scr"))

from common import ROOT
from explain.source import as_bytes, from_text
from explain.words import MOST_DEPTH, MOST_EVENTS
from sets import some
from words import CONDITION_TABLE, EVENT_TABLE, FALSE, MODE_CLASS, MODE_TABLE, MONITORED, NONE, TERM, TRUE
from words import assertion, both, either, equals, event, rises, row, table, variable

GUARD, START = 0, 1
# What is turned, again and again: document 01's three events first, and in all a way through the eight states that Set A reaches.
TURNED = (GUARD, START, GUARD, START, GUARD, START, START)

LEVEL, SWITCH, MODE = 0, 1, 2
LEVELS, MODES = 16, 4


def set_a():
    with open(os.path.join(ROOT, "examples", "set-a.hex"), encoding="utf-8") as opened:
        return from_text(opened.read()).set_bytes()


def stored():
    """Set A and 4,096 events, each of which turns Guard or Start: 4,125 words."""
    values = {GUARD: 0, START: 0}
    events = []
    for i in range(MOST_EVENTS):
        turned = TURNED[i % len(TURNED)]
        values[turned] = 1 - values[turned]
        events.append(event(turned, values[turned]))
    return set_a() + as_bytes(events)


def biggest():
    """As much as the program looks at: a set of 4,096 words that passes, and 4,096 events, all done."""
    return as_bytes(full_set() + level_events())


def full_set():
    """Two inputs, a mode class, 64 rows of 32 words and 32 assertions of 64, the last of 60. No two rows hold in one step: they differ in mode or
    in level."""
    words = [variable(MONITORED, LEVELS), variable(MONITORED, 2), variable(MODE_CLASS, MODES), table(MODE_TABLE, MODE, MODE)]
    for mode in range(MODES):
        for level in range(LEVELS):
            others = [equals(LEVEL, other) for other in range(LEVELS) if other != level]
            words += row(mode, (mode + level) % MODES, rises(equals(LEVEL, level), some(others)))
    for tests in [32] * 31 + [30]:
        # True in every state, since all levels are named.
        named = [equals(LEVEL, k) for k in range(LEVELS)] + [equals(MODE, k % MODES) for k in range(tests - LEVELS)]
        words += assertion(some(named))
    return words


def level_events():
    """Level goes up by 5, round at 16, and at every third event Switch is turned instead."""
    level, switch, events = 0, 0, []
    for i in range(MOST_EVENTS):
        if i % 3 == 2:
            switch = 1 - switch
            events.append(event(SWITCH, switch))
        else:
            level = (level + 5) % LEVELS
            events.append(event(LEVEL, level))
    return events


def longest_output():
    """Each number printed has as many digits as it can have, but for the number of assertions, with which the oracle's time grows. Ten terms that
    are always 0 stand before the input, and a term that stays 255 after it."""
    terms, turned, kept = range(10), 10, 11
    words = [variable(TERM, 2) for _ in terms] + [variable(MONITORED, 256, 255), variable(TERM, 256, 255)]
    for term in terms:
        words += [table(CONDITION_TABLE, term), *row(NONE, 0, TRUE)]
    words += [table(EVENT_TABLE, kept), *row(NONE, 0, FALSE)]
    return as_bytes(words + [event(turned, (254, 255)[i % 2]) for i in range(MOST_EVENTS)])


def deepest():
    """A set of formulas that have as many levels as they may, everywhere: in changes, in their WHEN, in a condition table and in an assertion."""
    level, switch, mode, term = range(4)
    words = [variable(MONITORED, 2), variable(MONITORED, 2), variable(MODE_CLASS, 2), variable(TERM, 2), table(MODE_TABLE, mode, mode)]
    for k in range(2):
        words += row(k, 1 - k, rises(deepened(equals(level, 1 - k), 2), deepened(equals(switch, 1), 2)))
    words += [table(CONDITION_TABLE, term), *row(NONE, 0, deepened(equals(switch, 0), 1)), *row(NONE, 1, deepened(equals(switch, 1), 1))]
    return as_bytes(words + assertion(deepened(either(equals(term, 0), equals(term, 1)), 2)))


def deepened(condition, taken):
    """The condition under as many levels of "and" as are left where so many are taken by the condition itself and by what it stands in."""
    for _ in range(MOST_DEPTH - taken):
        condition = both(TRUE, condition)
    return condition


if __name__ == "__main__":
    sys.stdout.buffer.write(stored())
