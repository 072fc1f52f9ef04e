"""Sets for timing check, each with the number of its steps and the answer that it is built for; all but `late` pass.

The rows of a condition table divide the states: their conditions are the leaves of a tree of tests. Of the rows of a mode or event table no
two hold in one step: one event alters one input, so rows of one mode differ in the input whose change they wait for, or in the
direction of the change, or their WHEN conditions are leaves of one tree."""
from words import CONDITION_TABLE, CONTROLLED, EVENT_TABLE, FALSE, MODE_CLASS, MODE_TABLE, MONITORED, NONE, TERM, TRUE
from words import assertion, at_most, both, either, equals, every, falls, no, rises, row, table, variable


def implies(first, second):
    return either(no(first), second)


class Sheet:
    """A set in the making. Variables have their numbers in the order in which they are added; their tables may be added in any order."""

    def __init__(self, random):
        self.random = random
        self.sizes, self.variables, self.tables, self.assertions = [], [], {}, []
        self.sayings = []  # what each row of a condition table says: true in every state

    def add(self, kind, size):
        self.variables.append(variable(kind, size))
        self.sizes.append(size)
        return len(self.sizes) - 1

    def words(self):
        """Tables stand in rising number of their variables (document 02, 2.7)."""
        return self.variables + sum((self.tables[name] for name in sorted(self.tables)), []) + self.assertions

    def add_table(self, kind, name, rows, mode=NONE):
        self.tables[name] = [table(kind, name, mode), *sum(rows, [])]

    def demand(self, condition):
        self.assertions += assertion(condition)

    def test(self, names):
        """A test that is neither true nor false of all values."""
        name = self.random.choice(names)
        if self.sizes[name] == 2:
            return equals(name, 1)
        return at_most(name, self.random.randrange(self.sizes[name] - 1))

    def leaves(self, names, count):
        """Conditions of which in every state just one is true. The shallowest leaf is split first."""
        paths = [[]]
        while len(paths) < count:
            path, test = paths.pop(0), self.test(names)
            paths += [path + [test], path + [no(test)]]
        return [every(path) for path in paths]

    def any_value(self, name):
        return self.random.randrange(self.sizes[name])

    def condition_table(self, name, names, count):
        """As many rows over the variables named. Gives what the first row says: where it holds, the variable has its value."""
        rows = [(self.any_value(name), leaf) for leaf in self.leaves(names, count)]
        self.add_table(CONDITION_TABLE, name, [row(NONE, value, leaf) for value, leaf in rows])
        sayings = [implies(leaf, equals(name, value)) for value, leaf in rows]
        self.sayings += sayings
        return sayings[0]

    def condition_table_by_mode(self, name, mode, names, counts):
        """As many rows of each mode. Gives what the first row says."""
        rows = [(m, self.any_value(name), leaf) for m, count in enumerate(counts) for leaf in self.leaves(names, count)]
        self.add_table(CONDITION_TABLE, name, [row(m, value, leaf) for m, value, leaf in rows], mode)
        sayings = [implies(both(equals(mode, m), leaf), equals(name, value)) for m, value, leaf in rows]
        self.sayings += sayings
        return sayings[0]


def pair(random):
    """Two inputs of 256 values, which leave no state for a mode class, and two condition tables over both."""
    sheet = Sheet(random)
    inputs = [sheet.add(MONITORED, 256), sheet.add(MONITORED, 256)]
    zone, feed = sheet.add(TERM, 8), sheet.add(CONTROLLED, 4)
    sheet.demand(sheet.condition_table(zone, inputs, 16))
    sheet.demand(sheet.condition_table(feed, [*inputs, zone], 12))
    return sheet.words(), 33423360, "PASS 65536 33423360 2"


def mix(random):
    """Inputs of 256 and 64 values, a mode class of 4 that may leave mode 0 only where the first input is low, two condition tables."""
    sheet = Sheet(random)
    inputs = [sheet.add(MONITORED, 256), sheet.add(MONITORED, 64)]
    mode = sheet.add(MODE_CLASS, 4)
    outputs = [sheet.add(CONTROLLED, 4), sheet.add(CONTROLLED, 2)]
    wide, narrow = inputs
    low, near = at_most(wide, 100), at_most(narrow, 20)
    rows = [row(0, random.randrange(4), rises(low, leaf)) for leaf in sheet.leaves([narrow, *outputs], 8)]
    for m in range(1, 4):
        rows.append(row(m, 0, falls(low)))
        for leaf in sheet.leaves([wide, *outputs], 4):
            rows.append(row(m, random.randrange(4), rises(near, leaf)))
            rows.append(row(m, random.randrange(4), falls(near, leaf)))
    sheet.add_table(MODE_TABLE, mode, rows, mode)
    sheet.demand(either(equals(mode, 0), low))
    sheet.demand(sheet.condition_table_by_mode(outputs[0], mode, inputs, [8] * 4))
    sheet.demand(sheet.condition_table(outputs[1], [*inputs, mode, outputs[0]], 16))
    return sheet.words(), 20840448, "PASS 65536 20840448 3"


def bool16(random):
    """Sixteen boolean inputs, nine condition tables of 20 rows, an assertion of what each says and one of two of them."""
    sheet = Sheet(random)
    inputs = [sheet.add(MONITORED, 2) for _ in range(16)]
    names = [sheet.add(TERM if place < 4 else CONTROLLED, random.choice([2, 3, 4])) for place in range(9)]
    said = [sheet.condition_table(name, inputs + names[:place], 20) for place, name in enumerate(names)]
    for condition in [*said, both(said[0], said[-1])]:
        sheet.demand(condition)
    return sheet.words(), 1048576, "PASS 65536 1048576 10"


class Shift:
    """The shift's profile: 25 variables, 200 rows, 65,536 states, 10 assertions."""

    def __init__(self, random):
        self.random = random
        self.sheet = Sheet(random)
        self.latch, self.cutting = self.sheet.add(TERM, 2), self.sheet.add(TERM, 2)
        self.inputs = [self.sheet.add(MONITORED, 2) for _ in range(10)]
        self.inputs.append(self.sheet.add(MONITORED, 4))
        self.mode = self.sheet.add(MODE_CLASS, 4)
        self.others = [self.sheet.add(TERM if place < 5 else CONTROLLED, random.choice([2, 3, 4])) for place in range(11)]
        # Mode m from 1 on has a guard: the mode is left as soon as it falls, and entered only where it is up.
        self.guards = {m: equals(self.inputs[m - 1], 1) for m in (1, 2, 3)}
        self.armed = equals(self.inputs[3], 1)

    def make_tables(self, late=False):
        """Gives what the first row of each condition table says."""
        said = [self.condition_table(place) for place in range(len(self.others))]
        self.mode_table()
        self.event_table(self.cutting, equals(self.mode, 2), [falls(equals(self.mode, 2))])
        self.latch_table(late)
        return said

    def words(self, late):
        said = self.make_tables(late)
        for m, guard in self.guards.items():
            self.sheet.demand(implies(equals(self.mode, m), guard))
        self.sheet.demand(implies(equals(self.cutting, 1), equals(self.mode, 2)))
        # Kept only where the assertions before it are true.
        self.sheet.demand(implies(equals(self.cutting, 1), self.guards[2]))
        for condition in said[:4]:
            self.sheet.demand(condition)
        self.sheet.demand(implies(equals(self.latch, 1), self.armed))
        return self.sheet.words()

    def any_name(self):
        return list(range(len(self.sheet.sizes)))

    def condition_table(self, place):
        """Fourteen rows, in every other table by mode."""
        name, names = self.others[place], self.inputs + self.others[:place]
        if place % 2:
            return self.sheet.condition_table_by_mode(name, self.mode, names, [4, 4, 3, 3])
        return self.sheet.condition_table(name, [*names, self.latch, self.mode], 14)

    def mode_table(self):
        """Six rows a mode: the guard falls, or one of three other inputs rises under one of two conditions."""
        rows = []
        for m in range(4):
            of_mode = [row(m, 0, falls(self.guards[m]))] if m else []
            for name in self.random.sample(self.inputs[4:10], 3):
                for leaf in self.sheet.leaves(self.any_name(), 2):
                    target = self.random.choice([1, 2, 3])
                    of_mode.append(row(m, target, rises(equals(name, 1), both(self.guards[target], leaf))))
            rows += of_mode[:6]
        self.sheet.add_table(MODE_TABLE, self.mode, rows, self.mode)

    def event_table(self, name, reason, resets):
        """Ten rows that set or clear the variable where the reason becomes true, and those given."""
        rows = [row(NONE, self.random.choice([0, 1]), rises(reason, leaf)) for leaf in self.sheet.leaves(self.any_name(), 10)]
        self.sheet.add_table(EVENT_TABLE, name, rows + [row(NONE, value, event) for value, event in enumerate(resets)])

    def latch_table(self, late):
        """The latch falls with its input; `late` it rises instead in one step, from the last state in which both terms are 0."""
        if not late:
            return self.event_table(self.latch, self.armed, [falls(self.armed)])
        highest = [equals(name, self.sheet.sizes[name] - 1) for name in [*self.inputs, self.mode]]
        there = every([equals(self.latch, 0), equals(self.cutting, 0), *highest])
        return self.event_table(self.latch, self.armed, [falls(self.armed, no(there)), falls(self.armed, there)])


def shift(random):
    return Shift(random).words(late=False), 851968, "PASS 65536 851968 10"


def late(random):
    """The shift's profile with a row more, by which one step breaks the last assertion: variable 5 goes to 0 in state 65,532."""
    return Shift(random).words(late=True), 851968, "REFUSE 14 9 65532 5 0"


def full(random):
    """The shift's tables, and 32 assertions that fill the set to its 4,096 words. Each says what some rows say, which is true in every state; every
    other one also has a part that only the steps keep."""
    shift = Shift(random)
    shift.make_tables()
    kept = [implies(equals(shift.mode, m), guard) for m, guard in shift.guards.items()]
    kept += [implies(equals(shift.cutting, 1), equals(shift.mode, 2)), implies(equals(shift.latch, 1), shift.armed)]
    for j in range(32):
        room = (4096 - len(shift.sheet.words())) // (32 - j)
        shift.sheet.demand(long_condition(random, [random.choice(kept)] if j % 2 else [], shift.sheet.sayings, room - 1))
    return shift.sheet.words(), 851968, "PASS 65536 851968 32"


def long_condition(random, parts, sayings, room):
    """The parts and as many sayings as fit, in just so many words."""

    def length(parts):
        return sum(len(part) + 1 for part in parts) - 1

    # At the end five or so words are left, in which parts of two and three go that are always true.
    while fitting := [saying for saying in sayings if length([*parts, saying]) in (room, *range(room - 1))]:
        parts = [*parts, random.choice(fitting)]
    while (left := room - length(parts)) > 0:
        parts = [*parts, no(FALSE) if left == 3 else TRUE]
    return every(parts)


def grown(random, inputs, size, tables):
    """So many inputs of one size, a mode class of 4 and so many condition tables of 24 rows, by mode; the mode table has a row for each of these.
    An assertion of what each says, and one that mode 1 has a guard: it is left as soon as the guard falls, and entered only where it is up."""
    sheet = Sheet(random)
    names = [sheet.add(MONITORED, size) for _ in range(inputs)]
    mode = sheet.add(MODE_CLASS, 4)
    tests = [equals(name, 1) if size == 2 else at_most(name, size // 2 - 1) for name in names]
    rows = []
    for place in range(tables):
        m, turn = place % 4, place // 4
        which = (turn + (m != 1)) % inputs
        change = falls if (turn // inputs + (which == 0)) % 2 else rises
        leaf = sheet.leaves(names, 2)[0]
        if m == 1 and turn == 0:
            rows.append(row(1, 0, falls(tests[0])))
        elif m == 0 and which != 0:
            rows.append(row(0, 1, change(tests[which], both(tests[0], leaf))))
        else:
            rows.append(row(m, [2, 2, 3, 0][m], change(tests[which], leaf)))
    sheet.add_table(MODE_TABLE, mode, rows, mode)
    sheet.demand(implies(equals(mode, 1), tests[0]))
    outputs = []
    for _ in range(tables):
        outputs.append(sheet.add(CONTROLLED, random.choice([2, 3, 4])))
        sheet.demand(sheet.condition_table_by_mode(outputs[-1], mode, names + outputs[:-1], [6] * 4))
    states = size**inputs * 4
    steps = states * inputs * (size - 1)
    return sheet.words(), steps, f"PASS {states} {steps} {tables + 1}"


def hard(random):
    """Made to cost much: two inputs of 256 values, and 32 assertions that are always true and test nearly every value, up to the limit of words."""
    sheet = Sheet(random)
    first, second = sheet.add(MONITORED, 256), sheet.add(MONITORED, 256)
    for j in range(32):
        tests = [equals(first, (8 * j + k) % 256) if k % 2 else equals(second, (24 * j + k) % 256) for k in range(61)]
        sheet.demand(some([*tests, no(tests[0])]))
    return sheet.words(), 33423360, "PASS 65536 33423360 32"


def hard_events(random):
    """Made to cost much in every step: inputs of 256 and 128 values, and an event table of rows that never hold but whose changes test nearly every value."""
    sheet = Sheet(random)
    first, second, term = sheet.add(MONITORED, 256), sheet.add(MONITORED, 128), sheet.add(TERM, 2)
    rows = []
    for j in range(32):
        tests = [equals(first, (8 * j + k) % 256) if k % 2 else equals(second, (12 * j + k) % 128) for k in range(61)]
        rows.append(row(NONE, 1, rises(some([*tests, no(tests[0])]))))
    sheet.add_table(EVENT_TABLE, term, rows)
    return sheet.words(), 25034752, "PASS 65536 25034752 0"


def some(conditions):
    """Their disjunction, as shallow as it goes."""
    while len(conditions) > 1:
        pairs = [conditions[k : k + 2] for k in range(0, len(conditions), 2)]
        conditions = [either(*pair) if len(pair) == 2 else pair[0] for pair in pairs]
    return conditions[0]


SETS = {"pair": pair, "mix": mix, "shift": shift, "bool16": bool16, "late": late, "full": full}
# The oracle takes very long on these: they are timed only if they are named.
NAMED_ONLY = {"hard": hard, "hard-events": hard_events}
