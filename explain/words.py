"""Kinds and fields of a word, as document 01 lays them down, and every limit that an explanation names."""

VARIABLE, TABLE, ROW, TEST, NOT, AND, OR, CHANGE, CONSTANT, ASSERTION, INPUT = range(1, 12)

MONITORED, MODE_CLASS, TERM, CONTROLLED = 1, 2, 3, 4
MODE_TABLE, EVENT_TABLE, CONDITION_TABLE = 1, 2, 3
EQUALS, AT_MOST = 0, 1
TO_TRUE, TO_FALSE = 1, 2

# The mode of a row that stands for every mode, and the class read of a table that reads none.
ANY = 255

CLASSES = {MONITORED: "monitored", MODE_CLASS: "mode class", TERM: "term", CONTROLLED: "controlled"}
# As a variable of that class is called.
CALLED = {MONITORED: "monitored variable", MODE_CLASS: "mode class", TERM: "term", CONTROLLED: "controlled variable"}
TYPES = {MODE_TABLE: "mode", EVENT_TABLE: "event", CONDITION_TABLE: "condition"}

MOST_WORDS, MOST_VARIABLES, MOST_ROWS, MOST_ASSERTIONS, MOST_DEPTH = 4096, 32, 64, 32, 16
MOST_STATES, MOST_EVENTS, MOST_INPUT_WORDS = 65536, 4096, 8192
LEAST_SIZE, MOST_SIZE, MOST_MODES = 2, 256, 255
CYCLE_MOVES = 32

KINDS = {
    VARIABLE: "variable",
    TABLE: "table",
    ROW: "row",
    TEST: "test",
    NOT: "not",
    AND: "and",
    OR: "or",
    CHANGE: "change",
    CONSTANT: "constant",
    ASSERTION: "assertion",
    INPUT: "input event",
}

# How many formulas follow a word of each kind, from kind 0 to kind 15 (document 02, 2.2).
OPERANDS = [0, 0, 0, 0, 0, 1, 2, 2, 2, 0, 0, 0, 0, 0, 0, 0]

# The bits below the kind that document 01 names; all others are spare and must be zero.
NAMED_BITS = {
    VARIABLE: 0x0FFFFFFF,
    TABLE: 0x0FFFFF00,
    ROW: 0x0FF000FF,
    TEST: 0x0FFF00FF,
    NOT: 0,
    AND: 0,
    OR: 0,
    CHANGE: 0x0F000000,
    CONSTANT: 0x00000001,
    ASSERTION: 0x0F000000,
    INPUT: 0x0FF000FF,
}


def field(word, high, low):
    return word >> low & (1 << high - low + 1) - 1


def kind(word):
    return field(word, 31, 28)


def sort(word):
    """Class of a variable, type of a table or of an assertion, code of a change."""
    return field(word, 27, 24)


def operands(word):
    """How many formulas follow the word."""
    return OPERANDS[kind(word)]


def spare_bits(word):
    """The spare bits that are set; a kind without a meaning names no bits and has none to spare."""
    return word & 0x0FFFFFFF & ~NAMED_BITS.get(kind(word), 0x0FFFFFFF)


def first_event(words):
    """Where the set ends and the events begin: at the first word of kind 11, wherever it stands."""
    return next((index for index, word in enumerate(words) if kind(word) == INPUT), len(words))


def input_event(variable, value):
    return INPUT << 28 | variable << 20 | value
