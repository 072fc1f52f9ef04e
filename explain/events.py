"""Events of the command line."""
from explain.source import HEXADECIMAL, BadInput, word_of
from explain.words import INPUT, input_event, kind


def add_events(source, arguments):
    """Events of the command line, after those of the file."""
    if arguments and source.rest:
        raise BadInput("events can't follow a broken last word: the file's length is not a multiple of four")
    for number, argument in enumerate(arguments, 1):
        place = f"event {number} of the command line"
        word = event_word(argument, place, source)
        if all(kind(earlier) != INPUT for earlier in source.words) and kind(word) != INPUT:
            raise BadInput(f"{argument!r}: the first event must be a word of kind 11 (B.......), else it is a word of the set")
        source.add(word, place)


def event_word(argument, place, source):
    """A word from v=k, by numbers or names, or from hexadecimal digits."""
    left, equals, right = (part.strip() for part in argument.partition("="))
    if not equals:
        if not HEXADECIMAL.match(argument):
            raise BadInput(f"{argument!r} is neither v=k nor a word of 1 to 8 hexadecimal digits")
        return word_of(argument, place, source.short)
    variable = source.names.variable_of(left)
    if variable is None:
        raise BadInput(f"{argument!r}: no variable is called {left!r}")
    value = source.names.value_of(variable, right)
    if value is None:
        raise BadInput(f"{argument!r}: no value of variable {variable} is called {right!r}")
    if variable > 255 or value > 255:
        raise BadInput(f"{argument!r}: variable and value are at most 255")
    return input_event(variable, value)
