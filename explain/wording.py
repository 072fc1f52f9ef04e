"""Words, formulas and states in plain words, by the names that a file gives."""
import itertools

from explain import words as w


def numbered(number, meanings):
    return f"{number} {meanings[number]}" if number in meanings else f"{number}"


class Wording:
    def __init__(self, names):
        self.names = names

    def short(self, variable):
        return self.names.variables.get(variable, f"v{variable}")

    def short_value(self, variable, value):
        return self.names.values.get((variable, value), str(value))

    def variable(self, variable):
        name = self.names.variables.get(variable)
        return f"variable {variable} {name}" if name else f"variable {variable}"

    def assertion(self, number):
        name = self.names.assertions.get(number)
        return f'assertion {number} "{name}"' if name else f"assertion {number}"

    def value(self, variable, value):
        """A value with its name, a question mark where it can't be worked out."""
        if value is None:
            return "?"
        name = self.names.values.get((variable, value))
        return f"{value} ({name})" if name else str(value)

    def values(self, variable, size):
        """All values of a variable with their names, as in `0 low, 1 .. 7, 8 high`."""
        names = [self.names.values.get((variable, value)) for value in range(size)]
        said = []
        for named, run in itertools.groupby(range(size), lambda value: value if names[value] else None):
            values = [str(value) for value in run]
            if named is not None:
                said.append(f"{named} {names[named]}")
            else:
                said += values if len(values) < 3 else [f"{values[0]} .. {values[-1]}"]
        return said

    def event(self, event):
        variable, value = event
        return f"{self.variable(variable)} to {self.value(variable, value)}"

    def formula(self, formula, inside=None):
        """A condition or an event. Parentheses stand wherever "and" and "or" meet. None is a formula that the words end before."""
        if formula is None:
            return "..."
        kind, word = w.kind(formula.word), formula.word
        if kind == w.TEST:
            variable, value = w.field(word, 27, 20), w.field(word, 7, 0)
            sign = "=" if w.field(word, 19, 16) == w.EQUALS else "<="
            return f"{self.short(variable)}{sign}{self.short_value(variable, value)}"
        if kind == w.CONSTANT:
            return "true" if word & 1 else "false"
        if kind == w.NOT:
            return f"not {self.formula(formula.operands[0], kind)}"
        first, second = (self.formula(operand, kind) for operand in formula.operands)
        if kind == w.CHANGE:
            change = f"{'@T' if w.sort(word) == w.TO_TRUE else '@F'}({first})"
            # The papers leave WHEN out where it says nothing.
            if second == "true":
                return change
            return f"{change} WHEN {second}" if inside is None else f"({change} WHEN {second})"
        joined = f"{first} {w.KINDS[kind]} {second}"
        return joined if inside in (None, kind, w.CHANGE) else f"({joined})"

    def word(self, word):
        """What a word says by itself, whether or not it fits where it stands."""
        said = SAYINGS.get(w.kind(word), lambda *_: f"kind {w.kind(word)}, which no word has")(self, word)
        spare = w.spare_bits(word)
        return f"{said}, spare bits {spare:08X}" if spare else said

    def variable_word(self, word):
        sort = numbered(w.sort(word), w.CLASSES)
        return f"variable: class {sort}, size {w.field(word, 23, 12)}, initial value {w.field(word, 11, 0)}"

    def table_word(self, word):
        sort, mode_class = numbered(w.sort(word), w.TYPES), w.field(word, 15, 8)
        reads = "reads no class" if mode_class == w.ANY else f"reads the modes of {self.variable(mode_class)}"
        return f"table: type {sort}, of {self.variable(w.field(word, 23, 16))}, {reads}"

    def row_word(self, word):
        mode = w.field(word, 27, 20)
        return f"row: {'every mode' if mode == w.ANY else f'mode {mode}'}, value {w.field(word, 7, 0)}"

    def test_word(self, word):
        variable, test = w.field(word, 27, 20), w.field(word, 19, 16)
        means = {w.EQUALS: "equals", w.AT_MOST: "at most"}.get(test, f"test {test}")
        return f"test: {self.variable(variable)} {means} {self.value(variable, w.field(word, 7, 0))}"

    def change_word(self, word):
        return f"change: {numbered(w.sort(word), {w.TO_TRUE: '@T', w.TO_FALSE: '@F'})}"

    def constant_word(self, word):
        return f"constant: {'true' if word & 1 else 'false'}"

    def input_word(self, word):
        return f"input event: {self.event((w.field(word, 27, 20), w.field(word, 7, 0)))}"

    def table(self, table):
        own = table.mode_class in (None, table.variable)
        reads = "" if own else f", by the modes of {self.variable(table.mode_class)}"
        return f"the {w.TYPES[table.sort]} table of {self.variable(table.variable)}{reads}"

    def row(self, table, row):
        mode = "every mode" if row.mode == w.ANY else f"mode {self.value(table.mode_class, row.mode)}"
        return f"{mode}: {self.formula(row.formula)}, gives {self.value(table.variable, row.value)}"


SAYINGS = {
    w.VARIABLE: Wording.variable_word,
    w.TABLE: Wording.table_word,
    w.ROW: Wording.row_word,
    w.TEST: Wording.test_word,
    w.NOT: lambda *_: "not",
    w.AND: lambda *_: "and",
    w.OR: lambda *_: "or",
    w.CHANGE: Wording.change_word,
    w.CONSTANT: Wording.constant_word,
    w.ASSERTION: lambda _, word: f"assertion: type {w.sort(word)}",
    w.INPUT: Wording.input_word,
}
