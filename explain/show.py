"""./scr show: the tables of a set as people read them, as far as its words read. Nothing is decided here, and no program is run."""
from explain import words as w
from explain.columns import aligned, broken, filled
from explain.reading import Formula
from explain.refusals import Explainer
from explain.states import States

FORMULA_WIDTH, VALUES_WIDTH = 90, 60
HEADS = {w.MODE_TABLE: ["event", "new mode"], w.EVENT_TABLE: ["event", "value"], w.CONDITION_TABLE: ["condition", "value"]}


def shown(source):
    """The lines to print for a source, of whatever words."""
    return Tables(source).lines()


def is_whole(source):
    """Whether the set was shown whole: it has words, not too many, and each of them reads."""
    return not Tables(source).stop()


def begun(words):
    """The formula that these words begin; None stands where one is missing."""
    following = iter(enumerate(words))

    def formula():
        index, word = next(following, (None, None))
        if word is None:
            return None
        return Formula(index, word, [formula() for _ in range(w.operands(word))], len(words))

    return formula()


class Tables(Explainer):
    def lines(self):
        """One part after the other in the order of the file, a blank line between two."""
        parts = [self.variables(), *map(self.table, self.reading.tables), self.assertions(), self.stop(), self.inputs()]
        return [line for part in parts if part for line in ["", *part]][1:]

    def variables(self):
        rows = [["number", "name", "class", "values", "first value", "place"]]
        first = self.first_values()
        for number, variable in enumerate(self.reading.variables):
            *values, last = self.say.values(number, variable.size)
            listed = filled([*(f"{value}," for value in values), last], VALUES_WIDTH)
            sort, place = w.CLASSES[variable.sort], self.place(variable.index)
            rows.append([str(number), self.say.short(number), sort, listed, self.first_value(number, first[number]), place])
        return ["Variables", *aligned(rows)] if self.reading.variables else []

    def first_values(self):
        """The values in the initial state, None for those that can't be worked out."""
        if self.reading.fault is None:
            states = States(self.reading)
            if len(states.order) == len(states.variables):
                return states.values(states.initial())
        return [None] * len(self.reading.variables)

    def first_value(self, number, given):
        """The first value; of a variable with a condition table what the table gives, where that is known."""
        variable, table = self.reading.variables[number], self.reading.table_of(number)
        said = self.say.short_value(number, variable.initial)
        if table is None and self.reading.fault is not None and variable.sort in (w.TERM, w.CONTROLLED):
            # Its table may be one of those not read, and a condition table.
            return f"{said} or by its table"
        if table is None or table.sort != w.CONDITION_TABLE:
            return said
        by_table = "by its table" if given is None else self.say.short_value(number, given)
        return f"{by_table} (its word says {variable.initial})" if variable.initial else by_table

    def table(self, table):
        moded = table.mode_class is not None
        rows = [["row", *["mode"] * moded, *HEADS[table.sort], "place"]]
        for number, row in enumerate(table.rows):
            mode = "every mode" if row.mode == w.ANY else self.say.short_value(table.mode_class, row.mode)
            formula = broken(self.formula(row.index, row.formula), FORMULA_WIDTH)
            rows.append([str(number), *[mode] * moded, formula, self.say.short_value(table.variable, row.value), self.place(row.index)])
        return [self.heading(table), *aligned(rows)]

    def heading(self, table):
        by = "" if table.mode_class in (None, table.variable) else f" by {self.say.short(table.mode_class)}"
        name, place = self.say.short(table.variable), self.place(table.index)
        return f"{w.TYPES[table.sort].capitalize()} table of {name}{by} (variable {table.variable}, {place})"

    def formula(self, index, formula):
        """The formula of the row or assertion at a word, as far as it reads."""
        return self.say.formula(formula or begun(self.set[index + 1 : self.reading.fault.index]))

    def assertions(self):
        lines = []
        for number, assertion in enumerate(self.reading.assertions):
            lines.append(f"  {self.say.assertion(number)} ({self.place(assertion.index)}):")
            lines += [f"    {line}" for line in broken(self.formula(assertion.index, assertion.condition), FORMULA_WIDTH)]
        return ["Assertions", *lines] if lines else []

    def stop(self):
        """Where reading stops and why; nothing if the set reads to its end."""
        fault, length = self.reading.fault, len(self.set)
        lines = [] if 1 <= length <= w.MOST_WORDS else self.refusal_1(length)
        if fault is not None:
            lines += ["Reading stops here:", *(f"  {line}" for line in self.faulty_word(fault.number, fault.index))]
        return lines

    def inputs(self):
        """The words from the first of kind 11 on; whether they are enabled is not asked."""
        if not self.events:
            return []
        lines = [f"Input events: {len(self.events):,}"]
        for number, word in enumerate(self.events):
            lines.append(f"  event {number}: {self.input_word(word)} ({self.place(len(self.set) + number)})")
        beyond = len(self.source.words) + bool(self.source.rest) - w.MOST_INPUT_WORDS
        return lines + [f"  {beyond:,} words more, which the program does not look at"] * (beyond > 0)

    def input_word(self, word):
        if w.kind(word) != w.INPUT or w.spare_bits(word):
            return f"{word:08X}, {self.say.word(word)}"
        variable, value = w.field(word, 27, 20), w.field(word, 7, 0)
        return f"{self.say.short(variable)} to {self.say.short_value(variable, value)}"
