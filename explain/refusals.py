"""Each refusal in plain words: its number, its cause as document 01 or a request of document 02 has it, and the witness that it carries."""
import math

from explain import words as w
from explain.order import cycle
from explain.states import mode_is, truth
from explain.witness import TYPED_STATE, Unfounded, Witness, found

CAUSES = {
    1: "0 words or over 4,096",
    2: "kind not allowed here, nonzero spare bits, or end too early",
    3: "field out of range; true used as an event; mode not 255 in a table without class",
    4: "one over a limit",
    5: "table of a monitored or already tabled variable, type that doesn't fit, or a class read that is no mode class or, in type 1, "
    "not the variable itself",
    6: "no table",
    7: "condition variable with initial value not 0",
    8: "states pass 65,536",
    9: "cycle",
    10: "gap",
    11: "condition overlap",
    12: "event overlap",
    13: "false initially",
    14: "broken by a step",
    15: "no such state",
    16: "not an enabled event word",
    17: "over 4,096 events, or fewer lent elements than needed",
    21: "table word whose variable is lower than that of the table before",
}

# Why a witness may be a state that nobody has seen.
TYPED = f"Every typed state counts. {TYPED_STATE}."


class Explainer(Witness):
    """Explains what the program printed for one source."""

    def __init__(self, source, done=(), start=None):
        """With the lines of the events done before the refusal and the state from which they ran, if not the initial one."""
        super().__init__(source)
        self.reached = done[-1][3] if done else start

    def refusal(self, number, carried):
        lines = [f"{number}: {CAUSES.get(number, 'no refusal that is known here')}."]
        try:
            return lines + getattr(self, f"refusal_{number}")(*carried)
        except (Unfounded, AttributeError, IndexError, TypeError, KeyError):
            # A witness that isn't there has no place to point at; a wrong explanation would be worse than none.
            return lines + ["The verdict stands, but this explanation's own reading of the words does not find its witness."]

    def not_run(self):
        """Said of a set that check refuses."""
        return [f"The events handed in, {len(self.events):,}, are not run: the set is refused."] if self.events else []

    # Refusals 1 to 5 and 21: reading the words

    def refusal_1(self, length):
        found(length == len(self.set))
        lines = [f"The set has {length} words; a set has 1 to {w.MOST_WORDS:,}."]
        if not self.set and self.events:
            lines.append(f"The first word is of kind 11, so it is an event and nothing is left for the set: {self.word_line(0)}.")
        return lines

    def faulty_word(self, number, index):
        fault = self.reading.fault
        found(fault is not None and (fault.number, fault.index) == (number, index))
        word = self.word_line(index) if index < len(self.set) else self.end_line()
        belongs = self.belongs(index) if number == 21 else []
        return [word, f"It is refused {self.where()}: {'; '.join(fault.reasons)}.", *belongs]

    def belongs(self, index):
        """The table before a table word that comes too late, and where it belongs."""
        tables, variable = self.reading.tables, w.field(self.set[index], 23, 16)
        higher = next(table for table in tables if table.variable > variable)
        return [
            f"The table before: {self.word_line(tables[-1].index)}.",
            f"Tables are to stand in rising number of their variables. Move the table of {self.say.variable(variable)}, its rows with it, to before "
            f"the table of {self.say.variable(higher.variable)} (word {higher.index}, {self.place(higher.index)}).",
        ]

    def end_line(self):
        """The end of the set: the end of the words, or the first word of kind 11."""
        if self.events:
            return f"The set ends after {len(self.set)} words, at the first of kind 11: {self.word_line(len(self.set))}"
        return f"The set ends after {len(self.set)} words."

    def where(self):
        reading = self.reading
        if reading.assertions:
            last = reading.assertions[-1]
            return f"{'in' if last.condition is None else 'after'} assertion {len(reading.assertions) - 1}"
        if reading.tables:
            table = reading.tables[-1]
            name = f"the table of {self.say.variable(table.variable)}"
            if not table.rows:
                return f"as the first row of {name}"
            return f"{'in' if table.rows[-1].formula is None else 'after'} row {len(table.rows) - 1} of {name}"
        return f"after {self.say.variable(len(reading.variables) - 1)}" if reading.variables else "as the first word"

    def refusal_2(self, index):
        return self.faulty_word(2, index)

    def refusal_3(self, index):
        return self.faulty_word(3, index)

    def refusal_4(self, index):
        return self.faulty_word(4, index)

    def refusal_5(self, index):
        return self.faulty_word(5, index)

    def refusal_21(self, index):
        return self.faulty_word(21, index)

    # Refusals 6 to 9: after the words

    def refusal_6(self, variable):
        found(self.reading.table_of(variable) is None and self.reading.variables[variable].sort != w.MONITORED)
        sort = w.CALLED[self.reading.variables[variable].sort]
        return [
            self.word_line(variable),
            f"{capital(self.say.variable(variable))}, a {sort}, has no table. Each variable but the monitored ones needs one.",
        ]

    def refusal_7(self, variable):
        table = self.reading.table_of(variable)
        found(table.sort == w.CONDITION_TABLE and self.reading.variables[variable].initial != 0)
        return [
            self.word_line(variable),
            f"{capital(self.say.variable(variable))} has a condition table (word {table.index}, {self.place(table.index)}), which gives it its value "
            "in every state; so its initial value field must be 0.",
        ]

    def refusal_8(self, variable):
        lines, states = [], 1
        for held in filter(self.reading.is_held, range(variable + 1)):
            found(states <= w.MOST_STATES)
            size = self.reading.variables[held].size
            lines.append(f"  {self.say.variable(held)}: {states} x {size} = {states * size}")
            states *= size
        found(states > w.MOST_STATES)
        return [f"At {self.say.variable(variable)} the product of the held variables' sizes passes {w.MOST_STATES:,}:", *lines]

    def refusal_9(self, variable, length):
        moves = cycle(self.reading)
        found(moves and moves[0][0] == variable and len(moves) == length)
        targets = [v for v, _ in moves[1:]] + [variable]
        lines = [
            f"  {self.say.variable(v)} reads {self.say.variable(target)} by {self.word_line(index)}"
            for (v, index), target in zip(moves, targets)
        ]
        return [f"Each of these variables needs the next one's value first ({'one' if length == 1 else length} in the cycle):", *lines]

    # Refusals 10 to 12: gaps and overlaps

    def refusal_10(self, side, state, variable):
        states = self.states()
        found(side == 0)
        values, table = states.values(state), self.reading.table_of(variable)
        found(not any(truth_value is not False for truth_value in states.rows_in(variable, values)))
        lines = [f"No row of {self.say.variable(variable)}'s table holds in state {state}, so it has no value there. {TYPED}"]
        lines += [f"State {state}:", *self.state_lines(values), self.table_line(table)]
        for number, row in enumerate(table.rows):
            why = "its condition is false" if mode_is(row, table, values) else "its mode is another"
            lines.append(f"row {number} does not hold, {why}: {self.say.row(table, row)}")
        return lines

    def refusal_11(self, side, state, variable, first, second):
        states = self.states()
        found(side == 0)
        values, table = states.values(state), self.reading.table_of(variable)
        self.lowest_two(states.rows_in(variable, values), first, second)
        lines = [f"Two rows of {self.say.variable(variable)}'s table hold in state {state}. {TYPED}", f"State {state}:"]
        return lines + self.state_lines(values) + self.two_rows(table, first, second)

    def refusal_12(self, state, variable, value, defined, first, second):
        states = self.states()
        before, table = states.values(state), self.reading.table_of(defined)
        after = states.after(before, (variable, value))
        self.lowest_two(states.rows_of_step(defined, before, after), first, second)
        lines = [
            f"Two rows of {self.say.variable(defined)}'s table hold in one step: in state {state}, when the input event "
            f"{self.input(variable, value)} happens. {TYPED}",
            f"The step from state {state}:",
        ]
        return lines + self.state_lines(before, after) + self.two_rows(table, first, second)

    @staticmethod
    def lowest_two(rows, first, second):
        holding = [number for number, truth_value in enumerate(rows) if truth_value]
        found(None not in rows and holding[:2] == [first, second])

    def two_rows(self, table, first, second):
        equal = table.rows[first].value == table.rows[second].value
        values = "They give the same value, which counts as an overlap too." if equal else "They give different values."
        return [self.table_line(table), *self.row_lines(table, first), *self.row_lines(table, second), values]

    # Refusals 13 and 14: assertions

    def refusal_13(self, assertion):
        states = self.states()
        values = states.values(states.initial())
        found(truth(self.reading.assertions[assertion].condition, values) is False)
        lines = [f"{capital(self.say.assertion(assertion))} is false in the initial state, {states.initial()}."]
        return lines + self.assertion_lines(assertion) + [f"State {states.initial()}:", *self.state_lines(values)]

    def refusal_14(self, assertion, state, variable, value):
        states = self.states()
        before = states.values(state)
        after = states.after(before, (variable, value))
        conditions = [each.condition for each in self.reading.assertions]
        found(all(truth(condition, before) for condition in conditions[: assertion + 1]))
        found(truth(conditions[assertion], after) is False)
        true = "it and the earlier ones are true" if assertion else "it is true"
        return [
            f"{capital(self.say.assertion(assertion))} is not kept: {true} in state {state}, and it is false after the input event "
            f"{self.input(variable, value)}.",
            *self.assertion_lines(assertion),
            f"The step from state {state}:",
            *self.state_lines(before, after),
            self.reach(state, states.initial()),
        ]

    @staticmethod
    def reach(state, initial):
        """Whether a run breaks the assertion, as far as that is plain."""
        if state == initial:
            return f"State {state} is the initial one, so a run breaks the assertion at once."
        return (
            f"{TYPED} So the assertion may still be true of all states that a run reaches. If it is, an assertion that rules state {state} "
            "out, set before this one, helps."
        )

    # Refusals 15 to 17: runs

    def refusal_15(self, state):
        count = math.prod(self.reading.variables[v].size for v in self.states().variables if self.states().is_held(v))
        found(state >= count)
        return [f"There is no state {state}: the typed states are 0 to {count - 1}."]

    def refusal_16(self, index):
        states = self.states()
        state = states.initial() if self.reached is None else self.reached
        values = states.values(state)
        reason = self.not_enabled(self.events[index], states, values)
        found(reason)
        lines = [f"Event {index} of the list is not done: {reason}.", self.word_line(len(self.set) + index)]
        return lines + [f"It comes in state {state}:", *self.state_lines(values)]

    def not_enabled(self, word, states, values):
        """Why an event word is not enabled, or nothing if it is."""
        variable, value = w.field(word, 27, 20), w.field(word, 7, 0)
        if w.kind(word) != w.INPUT:
            return f"it is of kind {w.kind(word)}, not 11"
        if w.spare_bits(word):
            return f"spare bits are not zero: {w.spare_bits(word):08X}"
        if variable not in states.variables:
            return f"there is no variable {variable}"
        if not states.is_monitored(variable):
            return f"{self.say.variable(variable)} is not monitored"
        if value >= states.size(variable):
            return f"value {value} is not below the size {states.size(variable)} of {self.say.variable(variable)}"
        if value == values[variable]:
            return f"{self.say.variable(variable)} has the value {self.say.value(variable, value)} already"
        return None

    def refusal_17(self, needed):
        found(len(self.events) > w.MOST_EVENTS)
        return [f"There are {len(self.events):,} event words; a run takes {w.MOST_EVENTS:,}."]


def capital(text):
    return text[:1].upper() + text[1:]
