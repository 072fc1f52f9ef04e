"""The words of a set, for the benchmarks: one function a word, formulas as lists of words, operator first."""

MONITORED, MODE_CLASS, TERM, CONTROLLED = 1, 2, 3, 4
MODE_TABLE, EVENT_TABLE, CONDITION_TABLE = 1, 2, 3
NONE = 255  # no class read by a table, every mode in a row

TRUE, FALSE = [0x90000001], [0x90000000]


def variable(kind, size, initial=0):
    return 0x10000000 | kind << 24 | size << 12 | initial


def table(kind, defined, mode_class=NONE):
    return 0x20000000 | kind << 24 | defined << 16 | mode_class << 8


def row(mode, value, formula):
    return [0x30000000 | mode << 20 | value] + formula


def assertion(condition):
    return [0xA1000000] + condition


def equals(variable, value):
    return [0x40000000 | variable << 20 | value]


def at_most(variable, value):
    return [0x40010000 | variable << 20 | value]


def no(condition):
    return [0x50000000] + condition


def both(first, second):
    return [0x60000000] + first + second


def either(first, second):
    return [0x70000000] + first + second


def rises(condition, when=TRUE):
    """@T(condition) WHEN when."""
    return [0x81000000] + condition + when


def falls(condition, when=TRUE):
    """@F(condition) WHEN when."""
    return [0x82000000] + condition + when


def event(variable, value):
    """An input event, for runs and steps."""
    return 0xB0000000 | variable << 20 | value


def every(conditions):
    """All of a list, divided evenly to stay shallow."""
    if not conditions:
        return TRUE
    if len(conditions) == 1:
        return conditions[0]
    half = len(conditions) // 2
    return both(every(conditions[:half]), every(conditions[half:]))


def call(number, words, arguments=()):
    """The probe's input."""
    numbers = [number, len(words), *words, *arguments]
    return b"".join(number.to_bytes(4, "little") for number in numbers)
