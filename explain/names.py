"""The names that comments give to variables, values and assertions:

    # var 0 Guard                           variable 0 is called Guard
    # var 2 Mode: 0 Idle, 1 Cut, 2 Hold     so are its values
    # assertion 1: no cut on old positions  assertion 1 is called so

A name may have several words, but no comma, semicolon, colon or equals sign, save that of an assertion; a second # ends it. Any other comment is
left alone. A wrong label would be worse than none: a name that doesn't fit the words, or that would name two things, is not taken, and a warning
tells its line."""
import re
from dataclasses import dataclass, field

from explain import words as w
from explain.reading import Reading

NAMED = re.compile(r"\s*var\s+([0-9]+)\b(.*)$", re.IGNORECASE)
NAMED_VALUE = re.compile(r"([0-9]+)\s+(.+)$")
NAMED_ASSERTION = re.compile(r"\s*assertion\s+([0-9]+)\b\s*:?(.*)$", re.IGNORECASE)
# A number before a word, as in "0 Idle 1 Cut" where a comma was forgotten.
NUMBER_INSIDE = re.compile(r"(^|\s)[0-9]+\s+\S")


@dataclass
class Comment:
    """What follows a #, with its line and the words that stand before it on that line."""

    line: int
    text: str
    words: range


@dataclass
class Names:
    variables: dict = field(default_factory=dict)
    values: dict = field(default_factory=dict)
    assertions: dict = field(default_factory=dict)

    def variable_of(self, text):
        """A variable by its number or name, or as it is shown without a name, v3."""
        named = number_of(text, {name: variable for variable, name in self.variables.items()})
        return numeral(text[1:]) if named is None and re.fullmatch(r"v[0-9]+", text) else named

    def value_of(self, variable, text):
        return number_of(text, {name: value for (named, value), name in self.values.items() if named == variable})


def number_of(text, names):
    """The number that a text is or names, or None."""
    return numeral(text) if re.fullmatch(r"[0-9]+", text) else names.get(text)


def numeral(digits):
    """The number; one of many digits counts as a big one, and is beyond every limit."""
    return int(digits) if len(digits) < 12 else 10**12


class Naming:
    """Takes the names of a text's comments and notes what is wrong with them."""

    def __init__(self, words):
        self.names, self.warnings = Names(), []
        first = w.first_event(words)
        ends = next((index for index, word in enumerate(words) if w.kind(word) != w.VARIABLE), len(words))
        # A variable keeps its number and its name also where its word, or an earlier one, is refused.
        self.sizes = [w.field(word, 23, 12) for word in words[: min(ends, w.MOST_VARIABLES)]]
        self.reading = Reading(words[:first])
        # Behind a word that doesn't read, or that cuts the set short, nobody knows how much was meant to stand.
        self.is_whole = self.reading.fault is None and all(w.kind(word) == w.INPUT for word in words[first:])

    def read(self, comment):
        self.line = comment.line
        text = comment.text.partition("#")[0]
        variable, assertion = NAMED.match(text), NAMED_ASSERTION.match(text)
        if variable and variable.group(2).strip():
            name, _, values = variable.group(2).partition(":")
            self.read_variable(comment, numeral(variable.group(1)), name.strip(), values)
        elif assertion and assertion.group(2).strip():
            self.read_assertion(comment, numeral(assertion.group(1)), assertion.group(2).strip())

    def warn(self, text):
        self.warnings.append(f"line {self.line}: {text}")

    def read_variable(self, comment, number, name, values):
        if not self.exists("variable", number, len(self.sizes)) or not self.stands(comment, "variable", number, range(len(self.sizes))):
            return
        if name and self.is_name(name, f"variable {number}") and self.is_free(name, f"v{number}"):
            self.take(self.names.variables, number, name, "variable", f"variable {number}")
        for part in filter(None, map(str.strip, values.split(","))):
            self.read_value(number, part)

    def is_free(self, name, label):
        """v3 is what variable 3 is called if it has no name, so no other may be called so."""
        if re.fullmatch(r"v[0-9]+", name) and name != label:
            self.warn(f"{name!r} is what variable {name[1:]} is called without a name, so it is not taken as another's name")
            return False
        return True

    def read_value(self, variable, part):
        named, size = NAMED_VALUE.match(part), self.sizes[variable]
        if not named:
            self.warn(f"{part!r} names no value of variable {variable}; write a number, a blank and a name, as in '0 Idle'")
            return
        value, name = numeral(named.group(1)), named.group(2)
        if value >= size:
            self.warn(f"variable {variable} has no value {value}: its size is {size}; the name {name!r} is not taken")
        elif self.is_name(name, f"a value of variable {variable}"):
            others = {k: other for (v, k), other in self.names.values.items() if v == variable}
            if self.take(others, value, name, "value", f"value {value} of variable {variable}"):
                self.names.values[variable, value] = name

    def read_assertion(self, comment, number, name):
        indices = [each.index for each in self.reading.assertions]
        if self.exists("assertion", number, len(indices)) and self.stands(comment, "assertion", number, indices):
            self.take(self.names.assertions, number, name, "assertion", f"assertion {number}")

    def exists(self, what, number, count):
        if number >= count and self.is_whole:
            self.warn(f"the comment names {what} {number}, but there is none: the set has {count}; the name is not taken")
        return number < count

    def stands(self, comment, what, number, indices):
        """Whether a comment may name this variable or assertion: it is not the case that others alone stand on its line."""
        here = [other for other, index in enumerate(indices) if index in comment.words]
        if here and number not in here:
            others = f"{what} {here[0]} stands" if len(here) == 1 else f"{what}s {here[0]} to {here[-1]} stand"
            self.warn(f"the comment names {what} {number}, but {others} on this line; the name is not taken")
        return not here or number in here

    def is_name(self, name, whose):
        why = None
        if re.search(r"[,;:=]", name):
            why = "a name has no comma, semicolon, colon or equals sign"
        elif re.fullmatch(r"[0-9]+", name):
            why = "a name is no number"
        elif NUMBER_INSIDE.search(name):
            why = "it has a number before a word, as if a comma were missing"
        if why:
            self.warn(f"{name!r} is not taken as the name of {whose}: {why}")
        return why is None

    def take(self, taken, number, name, what, whose):
        """Takes a name, unless the thing has another one or the name is another's."""
        others = [other for other, given in taken.items() if given == name and other != number]
        if others:
            self.warn(f"{name!r} is the name of {what} {others[0]} already, so it is not taken as the name of {whose}")
        elif taken.get(number, name) != name:
            self.warn(f"{whose} is called {taken[number]!r} already, so {name!r} is not taken")
        else:
            taken[number] = name
            return True
        return False


def names_of(comments, words):
    """The names that comments give, and the warnings about those that were not taken."""
    naming = Naming(words)
    for comment in comments:
        naming.read(comment)
    return naming.names, naming.warnings
