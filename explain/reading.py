"""A reading of the words as far as they read: what stands where, and of the first word that doesn't fit all that is wrong with it."""
from dataclasses import dataclass, field
from typing import Optional

from explain import words as w


@dataclass
class Variable:
    index: int
    sort: int
    size: int
    initial: int


@dataclass
class Formula:
    """A word of a formula and the formulas that it stands before. `end` is the index after its last word."""

    index: int
    word: int
    operands: list
    end: int


@dataclass
class Row:
    index: int
    mode: int
    value: int
    formula: Formula


@dataclass
class Table:
    index: int
    sort: int
    variable: int
    mode_class: Optional[int]
    rows: list = field(default_factory=list)


@dataclass
class Assertion:
    index: int
    condition: Formula


@dataclass(eq=False)
class Fault(Exception):
    """Refusals 2 to 5 and 21: the index of the word and all that is wrong with it."""

    number: int
    index: int
    reasons: list


class Reading:
    def __init__(self, words):
        self.words = words
        self.variables, self.tables, self.assertions = [], [], []
        self.at = 0
        self.fault = None
        try:
            self.read()
        except Fault as fault:
            self.fault = fault

    def table_of(self, variable):
        return next((table for table in self.tables if table.variable == variable), None)

    def is_held(self, variable):
        table = self.table_of(variable)
        return table is None or table.sort != w.CONDITION_TABLE

    def read(self):
        while self.kind_here() == w.VARIABLE:
            self.read_variable()
        while self.kind_here() == w.TABLE:
            self.read_table()
        while self.at < len(self.words):
            self.read_assertion()

    def kind_here(self):
        return w.kind(self.words[self.at]) if self.at < len(self.words) else None

    def take(self, allowed, wanted):
        """The word here, tested for refusal 2."""
        if self.at >= len(self.words):
            raise Fault(2, self.at, [f"the words end where {wanted} must stand"])
        index, word = self.at, self.words[self.at]
        if w.kind(word) not in allowed:
            raise Fault(2, index, [f"kind {w.kind(word)} is not allowed here, where {wanted} must stand"])
        if w.spare_bits(word):
            raise Fault(2, index, [f"spare bits are not zero: {w.spare_bits(word):08X}"])
        self.at += 1
        return index, word

    def within(self, count, most, index, what):
        if count >= most:
            raise Fault(4, index, [f"one over the limit of {most} {what}"])

    def read_variable(self):
        index, word = self.take({w.VARIABLE}, "a variable")
        self.within(len(self.variables), w.MOST_VARIABLES, index, "variables")
        sort, size, initial = w.sort(word), w.field(word, 23, 12), w.field(word, 11, 0)
        most = w.MOST_MODES if sort == w.MODE_CLASS else w.MOST_SIZE
        refuse(3, index, {
            f"class {sort} is none of 1 to 4": sort not in w.CLASSES,
            f"size {size} is not from {w.LEAST_SIZE} to {most}": not w.LEAST_SIZE <= size <= most,
            f"initial value {initial} is not below the size {size}": initial >= size,
        })
        self.variables.append(Variable(index, sort, size, initial))

    def read_table(self):
        index, word = self.take({w.TABLE}, "a table")
        sort, variable, mode_class = w.sort(word), w.field(word, 23, 16), w.field(word, 15, 8)
        count = len(self.variables)
        refuse(3, index, {
            f"type {sort} is none of 1 to 3": sort not in w.TYPES,
            f"there is no variable {variable}": variable >= count,
            f"there is no class {mode_class}": mode_class >= count and mode_class != w.ANY,
        })
        mode_class = None if mode_class == w.ANY else mode_class
        refuse(5, index, self.misfits(sort, variable, mode_class))
        refuse(21, index, self.out_of_order(variable))
        table = Table(index, sort, variable, mode_class)
        self.tables.append(table)
        while not table.rows or self.kind_here() == w.ROW:
            self.read_row(table)

    def misfits(self, sort, variable, mode_class):
        kind = self.variables[variable].sort
        reads_other = mode_class is not None and self.variables[mode_class].sort != w.MODE_CLASS
        return {
            f"variable {variable} is monitored": kind == w.MONITORED,
            f"variable {variable} has a table already": self.table_of(variable) is not None,
            f"type {sort} doesn't fit a {w.CALLED[kind]}": (sort == w.MODE_TABLE) != (kind == w.MODE_CLASS),
            f"variable {mode_class} is no mode class": reads_other,
            f"a table of type 1 must read its own variable {variable}": sort == w.MODE_TABLE and mode_class != variable,
        }

    def out_of_order(self, variable):
        """Against the table before, if there is one; its variable is another, since this is asked after 5."""
        return {
            f"variable {variable} is lower than variable {before.variable} of the table before": variable < before.variable
            for before in self.tables[-1:]
        }

    def read_row(self, table):
        index, word = self.take({w.ROW}, "a row")
        self.within(len(table.rows), w.MOST_ROWS, index, "rows a table")
        mode, value = w.field(word, 27, 20), w.field(word, 7, 0)
        size = self.variables[table.variable].size
        modes = None if table.mode_class is None else self.variables[table.mode_class].size
        refuse(3, index, {
            f"mode {mode} is not 255 in a table without class": modes is None and mode != w.ANY,
            f"mode {mode} is not below the class's size {modes}": modes is not None and mode != w.ANY and mode >= modes,
            f"value {value} is not below the size {size} of variable {table.variable}": value >= size,
        })
        # The row counts before its formula is read, so that a fault in the formula is told as one of this row.
        row = Row(index, mode, value, None)
        table.rows.append(row)
        row.formula = self.read_condition(1) if table.sort == w.CONDITION_TABLE else self.read_event(1)

    def read_assertion(self):
        index, word = self.take({w.ASSERTION}, self.wanted_here())
        self.within(len(self.assertions), w.MOST_ASSERTIONS, index, "assertions")
        refuse(3, index, {f"assertion type {w.sort(word)} is not 1": w.sort(word) != 1})
        assertion = Assertion(index, None)
        self.assertions.append(assertion)
        assertion.condition = self.read_condition(1)

    def wanted_here(self):
        if self.assertions:
            return "an assertion"
        return "a row, a table or an assertion" if self.tables else "a variable, a table or an assertion"

    def read_event(self, depth):
        index, word = self.take({w.OR, w.CHANGE, w.CONSTANT}, "an event (kind 7, 8 or 9)")
        self.within(depth - 1, w.MOST_DEPTH, index, "levels of a formula")
        refuse(3, index, {
            f"change {w.sort(word)} is neither 1 nor 2": w.kind(word) == w.CHANGE and w.sort(word) not in (w.TO_TRUE, w.TO_FALSE),
            "the constant true is no event": w.kind(word) == w.CONSTANT and word & 1 == 1,
        })
        operand = self.read_event if w.kind(word) == w.OR else self.read_condition
        operands = [operand(depth + 1) for _ in range(w.operands(word))]
        return Formula(index, word, operands, self.at)

    def read_condition(self, depth):
        index, word = self.take({w.TEST, w.NOT, w.AND, w.OR, w.CONSTANT}, "a condition (kind 4, 5, 6, 7 or 9)")
        self.within(depth - 1, w.MOST_DEPTH, index, "levels of a formula")
        if w.kind(word) == w.TEST:
            self.read_test(index, word)
        operands = [self.read_condition(depth + 1) for _ in range(w.operands(word))]
        return Formula(index, word, operands, self.at)

    def read_test(self, index, word):
        variable, test, value = w.field(word, 27, 20), w.field(word, 19, 16), w.field(word, 7, 0)
        known = variable < len(self.variables)
        size = self.variables[variable].size if known else 0
        refuse(3, index, {
            f"there is no variable {variable}": not known,
            f"test {test} is neither 0 nor 1": test not in (w.EQUALS, w.AT_MOST),
            f"value {value} is not below the size {size} of variable {variable}": known and value >= size,
        })


def refuse(number, index, faults):
    reasons = [reason for reason, given in faults.items() if given]
    if reasons:
        raise Fault(number, index, reasons)
