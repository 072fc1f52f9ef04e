"""What makes a verdict worth less than it looks, told before all else: words that were lost because they were taken for something else."""
from explain import words as w
from explain.reading import Reading
from explain.source import WRITTEN, is_control, lines_of


class Doubts:
    """The doubts about a file, before events of the command line are added to it."""

    def __init__(self, source):
        self.taken, self.beyond = [], []
        as_text, turned = None, False
        if not reads(source.set()):
            as_text, turned = as_text_lines(source), reads(turned_set(source))
            self.taken = taken_lines(source)
        # Letters taken for words may cut anything; what is wrong then is that they were taken so.
        self.cut = [] if as_text else cut_lines(source)
        self.other_reading = as_text or []
        if turned:
            self.other_reading = ["With the bytes of each word in the opposite order the words have the form of a set: the lowest byte of a word comes first."]

    def look_beyond(self, source):
        """Words that the program does not look at; events of the command line count too."""
        count = len(source.words) + bool(source.rest)
        if count > w.MOST_INPUT_WORDS:
            place = source.place(w.MOST_INPUT_WORDS)
            self.beyond = [
                f"WORDS ARE LEFT OUT: only the first {w.MOST_INPUT_WORDS:,} of the {count:,} words handed in are read; those from word "
                f"{w.MOST_INPUT_WORDS} ({place}) on are not looked at."
            ]

    def lines(self):
        return [*self.taken, *self.other_reading, *self.cut, *self.beyond]

    def none_written(self):
        """Why the bytes of the set must not be written: what a host then loads would not be what the file says."""
        meant = ["If it has the bytes of a set, say --binary."] if self.taken and not self.other_reading else []
        return [*self.taken, *meant, *self.other_reading, *self.cut]


def reads(words):
    """Whether the words have the form of a set. Tables in another order (refusal 21) do not tell of words that were lost."""
    fault = Reading(words).fault
    return bool(words) and (fault is None or fault.number == 21)


def turned_set(source):
    words = [int.from_bytes(word.to_bytes(4, "little"), "big") for word in source.words]
    return words[: w.first_event(words)]


def cut_lines(source):
    """The set ends at the first word of kind 11. If that can be no event, or if the set is not complete before it, or if words follow
    that are no events, it was hardly meant for one."""
    words = source.words + [0] * bool(source.rest)
    first = w.first_event(words)
    if first == len(words):
        return []
    other = next((index for index in range(first, len(words)) if w.kind(words[index]) != w.INPUT), None)
    fault = Reading(words[:first]).fault
    if w.spare_bits(words[first]):
        why = f"its spare bits are not 0, {w.spare_bits(words[first]):08X}, as no event has them"
    elif other is not None:
        why = f"word {other} ({source.place(other)}), {words[other]:08X}, is of kind {w.kind(words[other])} and is no event"
    elif fault is not None and fault.index == first:
        why = f"the set is not complete before it: {fault.reasons[0]}"
    else:
        return []
    return [
        f"THE SET IS CUT SHORT: word {first} ({source.place(first)}), {words[first]:08X}, is of kind 11, so the set ends before it, and all "
        f"words from there on, {len(words) - first} of them, were taken as events although {why}.",
        f"The verdict is of the words before it alone, {first} of them. If {words[first]:08X} was meant for a word of the set, mend it; else "
        "mend what follows it. Do not load the set as it is.",
    ]


def taken_lines(source):
    if source.guessed is None:
        return []
    at, data = source.guessed, source.data
    byte = f"byte {data[at]:02X} at line {line_of(data, at)} (byte {at} of the file)"
    return [f"TAKEN FOR BYTES, four a word, because of {byte}, which no UTF-8 text has."]


def line_of(data, at):
    before = data[:at].replace(b"\r\n", b"\n").replace(b"\r", b"\n")
    return before.count(b"\n") + 1


def as_text_lines(source):
    """How bytes read as words in hexadecimal, and what to do about it, or nothing."""
    for encoding in ("utf-16", "utf-16-le", "utf-16-be", "utf-8", "latin-1") if source.is_bytes() else ():
        try:
            text = source.data.decode(encoding)
        except UnicodeDecodeError:
            continue
        clean = "".join(character for character in text if not is_control(character))
        tokens = [(number, token) for number, tokens, _ in lines_of(clean) for token in tokens]
        others = [(number, token) for number, token in tokens if not WRITTEN.match(token)]
        # A few words may be mistyped; bytes that happen to be a few digits are no text.
        if 2 * len(others) < len(tokens):
            but = f", but for {others[0][1]!r} at line {others[0][0]}" if others else ""
            return [f"The file reads as hexadecimal text in {encoding.upper()}{but}. {advice(source, encoding)}"]
    return None


def advice(source, encoding):
    if source.guessed is None:
        return "Leave --binary out and try again."
    return "Take its control characters out and try again." if encoding == "utf-8" else "Save it as UTF-8 and try again."
