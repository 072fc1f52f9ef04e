"""A set of words as Promela, the language of Spin, as paper 001 translates tables: one choice of an input event a step, then the tables in
dependency order as guarded assignments from old and new values, in a d_step. Three shapes:

- `typed` asks what check asks. After the initial state is judged, the search goes on from every typed state. In each the condition tables have
  just one row that holds; in each step a mode or event table has one at most; each assertion is kept by each step from a state in which it and
  those before it are true. So Spin finds no error exactly if check passes.
- `reached` asks less, as the paper does: the states that runs reach from the initial one, and in each of them all assertions. Of rows that overlap
  the first is taken, and nothing is said of states that no run reaches.
- `paper` asks the same in the paper's own words: old and new variables are both kept in a state, and choosing an event is a transition apart.

The first two are made for speed: one transition a step, new values hidden, so that a state has none of them, and assertions judged once a state
where that is enough.

    python3 bench/promela.py SET [--seed N] [--shape typed|reached|paper]     prints the Promela text of a set of bench/sets.py"""
import argparse
import random

from words import CONDITION_TABLE, MONITORED, NONE

SHAPES = ("typed", "reached", "paper")
WIDE = 16  # values of an input above which one copy of the tables serves all its events


class Set:
    """The words read: sizes and initial values, tables by variable, assertions, the dependency order. The words are taken to be well formed."""

    def __init__(self, words):
        self.words = words
        self.sizes, self.initial, self.monitored, self.tables, self.assertions = [], [], [], {}, []
        at = 0
        while at < len(words):
            at = self.read(at)
        self.conditions = [v for v, table in self.tables.items() if table["kind"] == CONDITION_TABLE]
        self.held = [v for v in range(len(self.sizes)) if v not in self.conditions]
        self.order = self.dependency_order()

    def read(self, at):
        word = self.words[at]
        kind = word >> 28
        if kind == 1:
            if word >> 24 & 15 == MONITORED:
                self.monitored.append(len(self.sizes))
            self.sizes.append(word >> 12 & 0xFFF)
            self.initial.append(word & 0xFFF)
        elif kind == 2:
            self.last = {"kind": word >> 24 & 15, "class": word >> 8 & 255, "rows": []}
            self.tables[word >> 16 & 255] = self.last
        elif kind == 3:
            formula, at = self.formula(at + 1)
            self.last["rows"].append((word >> 20 & 255, word & 255, formula))
            return at
        else:
            formula, at = self.formula(at + 1)
            self.assertions.append(formula)
            return at
        return at + 1

    def formula(self, at):
        """A formula as a nested tuple, and the place after it."""
        word = self.words[at]
        kind = word >> 28
        if kind == 4:
            return ("test", word >> 20 & 255, "<=" if word >> 16 & 15 else "==", word & 255), at + 1
        if kind == 9:
            return ("constant", word & 1), at + 1
        first, at = self.formula(at + 1)
        if kind == 5:
            return ("not", first), at
        second, at = self.formula(at)
        if kind == 8:
            return ("change", word >> 24 & 15, first, second), at
        return ("and" if kind == 6 else "or", first, second), at

    def reads(self, name):
        """The variables whose new values a table needs."""
        table = self.tables.get(name, {"kind": 0, "class": NONE, "rows": []})
        found = {table["class"]} - {NONE} if table["kind"] == CONDITION_TABLE else set()
        for _, _, formula in table["rows"]:
            found |= tested(formula)
        return found

    def dependency_order(self):
        order = []
        while len(order) < len(self.sizes):
            order.append(next(v for v in range(len(self.sizes)) if v not in order and self.reads(v) <= set(order)))
        return order


def tested(formula):
    if formula[0] == "test":
        return {formula[1]}
    if formula[0] == "constant":
        return set()
    operands = formula[2:3] if formula[0] == "change" else formula[1:]
    return set().union(*[tested(operand) for operand in operands])


def said(formula, before, after):
    """A formula as an expression: conditions by the names of `after`, the WHEN of a change by those of `before`."""
    operator, *parts = formula
    if operator == "test":
        return f"({after(parts[0])}{parts[1]}{parts[2]})"
    if operator == "constant":
        return str(parts[0])
    if operator == "not":
        return f"(!{said(parts[0], before, after)})"  # two in a row would be another operator
    if operator in ("and", "or"):
        sign = "&&" if operator == "and" else "||"
        return f"({said(parts[0], before, after)} {sign} {said(parts[1], before, after)})"
    change, c, d = parts
    was, becomes = said(c, before, before), said(c, before, after)
    was, becomes = (f"!{was}", becomes) if change == 1 else (was, f"!{becomes}")
    return f"({was} && {becomes} && {said(d, before, before)})"


def old(name):
    return f"x{name}"


class Translation:
    def __init__(self, words, shape):
        self.set = Set(words)
        self.typed, self.paper = shape == "typed", shape == "paper"
        self.lines = []

    def put(self, line):
        self.lines.append(line)

    def text(self):
        self.declare()
        self.put("init {")
        self.initial_state()
        if self.typed:
            self.any_state()
        self.put("do")
        if self.paper:
            self.paper_loop()
        else:
            self.options()
        self.put("od")
        self.put("}")
        return "\n".join(self.lines) + "\n"

    def paper_loop(self):
        self.put("::")
        if self.set.assertions:
            self.put(f"assert({self.all_true(old)});")
        self.put("if")
        for name in self.set.monitored:
            self.put(f":: if {self.choices(name, f'y{name}')} fi")
        self.put("fi;")
        self.put("d_step {")
        self.tables("y{}".format)
        for name in range(len(self.set.sizes)):
            self.put(f"{old(name)} = y{name};")
        self.put("}")

    def choices(self, name, result):
        return " ".join(f":: {old(name)} != {value} -> {result} = {value}" for value in range(self.set.sizes[name]))

    def options(self):
        if not self.typed and self.set.assertions:
            # An option that no good state has, so the assertions are judged once a state.
            self.put(f":: !({self.all_true(old)}) -> assert(false)")
        for name in self.set.monitored:
            self.events(name)

    def events(self, name):
        """The options of one input. A copy of the tables for each value makes the fastest search, but for many values Spin and the compiler take
        minutes over them, for a tenth of the search's time."""
        values = range(self.set.sizes[name])
        if len(values) <= WIDE:
            for value in values:
                self.step(name, value, f":: d_step {{ {old(name)} != {value} ->")
            return
        self.put(":: atomic {")
        self.put(f"if {self.choices(name, 'k')} fi;")
        self.step(name, "k", "d_step {")
        self.put("}")

    def declare(self):
        for name in range(len(self.set.sizes)):
            self.put(f"byte x{name}; {'' if self.paper else 'hidden '}byte y{name};")
        self.put("hidden byte k;")
        if self.typed:
            self.put("byte p; hidden byte q; hidden byte n;")

    def all_true(self, names):
        return " && ".join(said(a, names, names) for a in self.set.assertions)

    def premises(self, names, result):
        """How many of the assertions are true up to the first that is false."""
        self.put("if")
        for j, assertion in enumerate(self.set.assertions):
            self.put(f":: !{said(assertion, names, names)} -> {result} = {j}")
        self.put(f":: else -> {result} = {len(self.set.assertions)}")
        self.put("fi;")

    def initial_state(self):
        self.put("d_step {")
        for name in self.set.held:
            self.put(f"{old(name)} = {self.set.initial[name]};")
        self.conditions_of_state()
        if self.paper:
            for name in range(len(self.set.sizes)):
                self.put(f"y{name} = {old(name)};")
        if self.typed and self.set.assertions:
            self.put(f"assert({self.all_true(old)});")
        self.put("}")

    def any_state(self):
        """Goes on from any typed state, each looked at for gaps and overlaps. The premises of a state are kept with it: they follow from it."""
        self.put("atomic {")
        for name in self.set.conditions:
            self.put(f"{old(name)} = 0;")
        for name in self.set.held:
            self.put("if " + " ".join(f":: {old(name)} = {value}" for value in range(self.set.sizes[name])) + " fi;")
        self.put("d_step {")
        self.conditions_of_state()
        self.premises(old, "p")
        self.put("}")
        self.put("}")

    def conditions_of_state(self):
        for name in self.set.order:
            if name in self.set.conditions:
                self.table(name, old, old, old(name), self.typed)

    def guard(self, name, row, before, after):
        mode, _, formula = row
        table = self.set.tables[name]
        condition = said(formula, before, after)
        if mode == NONE:
            return condition
        time = after if table["kind"] == CONDITION_TABLE else before
        return f"({time(table['class'])}=={mode} && {condition})"

    def table(self, name, before, after, result, looked_for):
        """The value of a table. Where faults are looked for, every row is judged and those that hold are counted."""
        table = self.set.tables[name]
        guards = [(self.guard(name, row, before, after), row[1]) for row in table["rows"]]
        condition = table["kind"] == CONDITION_TABLE
        if looked_for:
            self.put("n = 0;")
            if not condition:
                self.put(f"{result} = {before(name)};")
            for guard, value in guards:
                self.put(f"if :: {guard} -> {result} = {value}; n++ :: else fi;")
            self.put(f"assert(n {'==' if condition else '<='} 1);")
            return
        self.put("if")
        for guard, value in guards:
            self.put(f":: {guard} -> {result} = {value}")
        if not condition:
            self.put(f":: else -> {result} = {before(name)}")
        self.put("fi;")

    def tables(self, new):
        for name in self.set.order:
            if name in self.set.tables:
                self.table(name, old, new, f"y{name}", self.typed and name not in self.set.conditions)

    def step(self, name, value, opening):
        """The option of one input event. The state after it is typed, so its condition tables are looked at where it is chosen."""

        def new(other):
            if other == name:
                return str(value)
            return old(other) if other in self.set.monitored else f"y{other}"

        self.put(opening)
        self.tables(new)
        if self.typed:
            self.premises(new, "q")
            self.put("assert(q >= p);")
            self.put("p = q;")
        self.put(f"{old(name)} = {value};")
        for other in self.set.tables:
            self.put(f"{old(other)} = y{other};")
        self.put("}")


def promela(words, shape):
    return Translation(words, shape).text()


def main():
    from sets import SETS

    parser = argparse.ArgumentParser(description="A set as Promela.")
    parser.add_argument("set", choices=SETS)
    parser.add_argument("--seed", type=int, default=1)
    parser.add_argument("--shape", choices=SHAPES, default="typed")
    options = parser.parse_args()
    print(promela(SETS[options.set](random.Random(options.seed))[0], options.shape), end="")


if __name__ == "__main__":
    main()
