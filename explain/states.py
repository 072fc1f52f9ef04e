"""Held values of a state number, values of condition variables and of a step, as far as they can be worked out.

None stands for a value or a truth that can't be: behind a gap or an overlap, say."""
from explain import words as w
from explain.order import dependency_order


def truth(condition, values):
    """True, false or None of a condition."""
    kind, word = w.kind(condition.word), condition.word
    if kind == w.TEST:
        value = values[w.field(word, 27, 20)]
        if value is None:
            return None
        wanted = w.field(word, 7, 0)
        return value == wanted if w.field(word, 19, 16) == w.EQUALS else value <= wanted
    if kind == w.CONSTANT:
        return word & 1 == 1
    first = truth(condition.operands[0], values)
    if kind == w.NOT:
        return negated(first)
    # What decides alone saves a look at the other.
    if first is (kind == w.OR):
        return first
    second = truth(condition.operands[1], values)
    return both(first, second) if kind == w.AND else negated(both(negated(first), negated(second)))


def negated(truth_value):
    return None if truth_value is None else not truth_value


def both(first, second):
    if first is False or second is False:
        return False
    return None if first is None or second is None else True


def happens(event, before, after):
    """@T(c) WHEN d: c false before and true after, d true before. @F(c) is @T(not c)."""
    kind = w.kind(event.word)
    if kind == w.CONSTANT:
        return False
    if kind == w.OR:
        first, second = (happens(operand, before, after) for operand in event.operands)
        return negated(both(negated(first), negated(second)))
    c, d = event.operands
    was, becomes = truth(c, before), truth(c, after)
    if w.sort(event.word) == w.TO_FALSE:
        was, becomes = negated(was), negated(becomes)
    return both(both(negated(was), becomes), truth(d, before))


def mode_is(row, table, values):
    if row.mode == w.ANY:
        return True
    mode = values[table.mode_class]
    return None if mode is None else mode == row.mode


class States:
    """The states of a set that clears refusals 1 to 9 and 21."""

    def __init__(self, reading):
        self.reading = reading
        self.variables = range(len(reading.variables))
        self.order = dependency_order(reading)
        self.tables = {table.variable: table for table in reading.tables}
        # Runs come to the same states again and again.
        self.kept = {}

    def is_held(self, variable):
        return variable not in self.tables or self.tables[variable].sort != w.CONDITION_TABLE

    def size(self, variable):
        return self.reading.variables[variable].size

    def is_monitored(self, variable):
        return variable in self.variables and self.reading.variables[variable].sort == w.MONITORED

    def initial(self):
        state, weight = 0, 1
        for variable in filter(self.is_held, self.variables):
            state += self.reading.variables[variable].initial * weight
            weight *= self.size(variable)
        return state

    def values(self, state):
        """The held values, and those of condition variables where just one row holds."""
        if state not in self.kept:
            self.kept[state] = self.worked_out(state)
        return self.kept[state]

    def worked_out(self, state):
        values = [None] * len(self.variables)
        for variable in filter(self.is_held, self.variables):
            state, values[variable] = divmod(state, self.size(variable))
        for variable in self.order:
            if not self.is_held(variable):
                values[variable] = self.given(self.tables[variable], self.rows_in(variable, values))
        return values

    def after(self, before, event):
        """The values after an input event, of each variable whose table gives it one."""
        variable, value = event
        after = [None] * len(self.variables)
        for each in self.order:
            if self.is_monitored(each):
                after[each] = value if each == variable else before[each]
            elif self.is_held(each):
                after[each] = self.given(self.tables[each], self.rows_of_step(each, before, after), before[each])
            else:
                after[each] = self.given(self.tables[each], self.rows_in(each, after))
        return after

    def rows_in(self, variable, values):
        """The truth of each row of a condition table in a state."""
        table = self.tables[variable]
        return [both(mode_is(row, table, values), truth(row.formula, values)) for row in table.rows]

    def rows_of_step(self, variable, before, after):
        """The truth of each row of a mode or event table in a step."""
        table = self.tables[variable]
        return [both(mode_is(row, table, before), happens(row.formula, before, after)) for row in table.rows]

    @staticmethod
    def given(table, rows, old=None):
        """The value of the one row that holds, the old one where none does."""
        if None in rows or rows.count(True) > 1:
            return None
        return table.rows[rows.index(True)].value if True in rows else old
