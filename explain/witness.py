"""The parts of a witness as lines: a word with its place, a row, an assertion, a state with its values."""
from explain import words as w
from explain.columns import aligned
from explain.reading import Reading
from explain.states import States
from explain.wording import Wording


TYPED_STATE = "A typed state is any choice of a value for each variable without a condition table, whether or not a run reaches it"


class Unfounded(Exception):
    """The witness is not one in the words as read here."""


def found(truth_value):
    if not truth_value:
        raise Unfounded


class Witness:
    """What a source says, split into the set and its events as the program splits it."""

    def __init__(self, source):
        self.source = source
        self.set, self.events = source.set(), source.events()
        self.say = Wording(source.names)
        self.reading = Reading(self.set)
        self.known = None

    def place(self, index):
        return self.source.place(index)

    def word_line(self, index):
        word = (self.set + self.events)[index]
        return f"word {index} ({self.place(index)}): {word:08X}, {self.say.word(word)}"

    def words_line(self, first, end):
        return f"  words {first} to {end - 1}: {' '.join(f'{word:08X}' for word in self.set[first:end])}"

    def input(self, variable, value):
        """An input event with its word, which can be handed in to try the step."""
        return f"{self.say.event((variable, value))} ({w.input_event(variable, value):08X})"

    def row_lines(self, table, number):
        row = table.rows[number]
        return [
            f"row {number} (word {row.index}, {self.place(row.index)}): {self.say.row(table, row)}",
            self.words_line(row.index, row.formula.end),
        ]

    def table_line(self, table):
        return f"The table: {self.say.table(table)} (word {table.index}, {self.place(table.index)})."

    def assertion_lines(self, number):
        assertion = self.reading.assertions[number]
        return [
            f"{self.say.assertion(number)} (word {assertion.index}, {self.place(assertion.index)}): {self.say.formula(assertion.condition)}",
            self.words_line(assertion.index, assertion.condition.end),
        ]

    def state_lines(self, *columns):
        """A line for each variable with its value; with two columns, the values before and after a step."""
        states = self.states()
        rows = [["variable", *(["value"] if len(columns) == 1 else ["before", "after"]), ""]]
        for variable in states.variables:
            name = self.source.names.variables.get(variable, "")
            mark = "" if states.is_held(variable) else "by its condition table"
            rows.append([f"{variable} {name}".rstrip(), *(self.say.value(variable, values[variable]) for values in columns), mark])
        lines = aligned(rows)
        if any("?" in row for row in rows):
            lines.append("  (? has no value here: it is refused, or depends on what is refused)")
        return lines

    def changes(self, variable, before, after):
        """What else a step altered beside its input."""
        others = [v for v in self.states().variables if v != variable and before[v] != after[v]]
        return ", ".join(self.change(v, before[v], after[v]) for v in others) or "nothing else changes"

    def change(self, variable, before, after):
        values = [self.say.short_value(variable, value) for value in (before, after)]
        return f"{self.say.short(variable)} from {' to '.join(values)}"

    def states(self):
        found(self.reading.fault is None)
        if self.known is None:
            self.known = States(self.reading)
        return self.known
