"""The words handed in, each with its place, and the names that comments give (explain/names.py).

A text has words of 1 to 8 hexadecimal digits; what follows a # is a comment."""
import re
from dataclasses import dataclass, field
from typing import Optional

from explain import words as w
from explain.names import Comment, Names, names_of

HEXADECIMAL = re.compile(r"(0x)?([0-9a-fA-F]{1,8})$")
# A word as everybody writes it.
WRITTEN = re.compile(r"(0x)?[0-9a-fA-F]{8}$")
DIGITS = 8


class BadInput(Exception):
    """Something handed in that is no list of words, or a program that gives no answer, said in plain words."""


@dataclass
class Source:
    """Words and their places. `rest` holds the one to three bytes of a broken last word; `short`, `commented` and `misnamed` hold
    warnings. `guessed` is where the byte stands because of which a file was taken for bytes, though nobody said that it is."""

    words: list = field(default_factory=list)
    places: list = field(default_factory=list)
    names: Names = field(default_factory=Names)
    rest: bytes = b""
    short: list = field(default_factory=list)
    commented: list = field(default_factory=list)
    misnamed: list = field(default_factory=list)
    guessed: Optional[int] = None
    data: Optional[bytes] = None

    def add(self, word, place):
        self.words.append(word)
        self.places.append(place)

    def bytes(self):
        return as_bytes(self.words) + self.rest

    def handed(self):
        """The words that the program reads: so many and no more. A broken last word is one more, of value 0."""
        return (self.words + [0] * bool(self.rest))[: w.MOST_INPUT_WORDS]

    def set(self):
        return self.handed()[: w.first_event(self.handed())]

    def events(self):
        return self.handed()[w.first_event(self.handed()) :]

    def set_bytes(self):
        """The words before the first of kind 11, as bytes; a broken last word stays broken."""
        words = self.words[: w.first_event(self.words)]
        return as_bytes(words) + (self.rest if len(words) == len(self.words) else b"")

    def place(self, index):
        """The place of a word: line of a text, byte of a file, event of the command line."""
        return self.places[index] if index < len(self.places) else "the broken last word"

    def drop_events(self):
        """Leaves the events out; how many there were."""
        ends, count = w.first_event(self.words), len(self.events())
        if count:
            del self.words[ends:], self.places[ends:]
            self.rest = b""
        return count

    def is_bytes(self):
        return self.data is not None


def as_bytes(words):
    return b"".join(word.to_bytes(4, "little") for word in words)


def no_text(data):
    """Where the first byte stands that no text has, None if there is none. Words as bytes have such bytes. Each set that reads has: the
    first byte of a table or assertion word is 0, and the last of a variable word is one of 11 to 14, hexadecimal."""
    try:
        text, ends = data.decode("utf-8"), None
    except UnicodeDecodeError as fault:
        text, ends = data[: fault.start].decode("utf-8"), fault.start
    first = next((at for at, character in enumerate(text) if is_control(character)), None)
    return ends if first is None else len(text[:first].encode("utf-8"))


def is_control(character):
    return ord(character) < 32 and character not in "\t\n\r\f"


def from_bytes(data):
    whole = len(data) - len(data) % 4
    source = Source(rest=data[whole:], data=data)
    for at in range(0, whole, 4):
        source.add(int.from_bytes(data[at : at + 4], "little"), f"byte {at}")
    return source


def lines_of(text):
    """The number of each line, its words as they are written, and its comment. Other signs than a line's end may look like one, and end a
    comment too: nothing that stands behind them may be lost."""
    for number, line in enumerate(re.split(r"\r\n|\r|\n", text), 1):
        for part in re.split("[\f\x85\u2028\u2029]", line):
            code, _, comment = part.partition("#")
            yield number, code.split(), comment


def from_text(text):
    source, comments = Source(), []
    for number, tokens, comment in lines_of(text):
        first = len(source.words)
        for token in tokens:
            source.add(word_of(token, f"line {number}", source.short), f"line {number}")
        comments.append(Comment(number, comment, range(first, len(source.words))))
        hidden = next(iter(comment.split(None, 1)), "")
        if WRITTEN.match(hidden):
            source.commented.append(f"line {number}: the comment begins with {hidden}, which looks like a word; what follows a # is not read")
    source.names, source.misnamed = names_of(comments, source.words)
    return source


def word_of(token, place, warnings):
    """The word that a token is. A short one may be a name that was meant for something else, as Feed is 0000FEED."""
    digits = HEXADECIMAL.match(token)
    if not digits:
        raise BadInput(f"{place}: {token!r} is not a word of 1 to {DIGITS} hexadecimal digits")
    word = int(digits.group(2), 16)
    if len(digits.group(2)) < DIGITS:
        warnings.append(f"{place}: {token!r} has fewer than {DIGITS} digits and is taken for the word {word:08X}")
    return word


def from_data(data, binary=False):
    at = None if binary else no_text(data)
    if at is None and not binary:
        return from_text(data.decode("utf-8-sig"))
    source = from_bytes(data)
    source.guessed = at
    return source
