"""The arguments of ./scr: options may stand before and after the file, and -- ends them."""
import re
from dataclasses import dataclass, field
from typing import Optional

from explain.source import BadInput

USAGE = """\
usage: ./scr [--binary] [--quiet] [--state N] FILE [EVENT...]
       ./scr [--binary] show FILE
       ./scr [--binary] --bytes FILE"""
HELP = f"""\
./scr: runs the proved checker on words written as text or bytes, and explains its verdict.

{USAGE}

FILE       words in hexadecimal, what follows a # being a comment, or words as bytes, four a word, lowest byte first; - for standard
           input. A file with bytes that no text has is taken for bytes; --binary says that it is.
EVENT      v=k (monitored variable v to value k, by number or by name), or a word in hexadecimal. Events follow those of the file.
show       run nothing: print the variables, tables and assertions as people read them, as far as the words read.
--state N  show state N, its enabled events and where each leads, and run the events of the command line from there. Those of the file are
           for a run from the initial state and are left out.
--quiet    no explanation: only what the program prints.
--bytes    run nothing: write the words of the set, without events, as bytes to standard output, as the C host takes them.
--version  which words this checker knows.
--         what follows is no option: ./scr -- -file.hex

Comments name things: "# var 2 Mode", "# var 2 Mode: 0 Idle, 1 Cut, 2 Hold", "# assertion 0: no cut while the guard is open". What is wrong
with a name, words of fewer than eight digits and comments that begin with a word get a warning on standard error.

First come the program's lines, as it prints them; then the explanation, indented by two blanks.

Exit status:
  0  the set passes and may be loaded, and all events are done
  1  the set is refused, or cut short, words of it having been taken for events: do not load it
  2  no verdict: bad usage or input, a program that fails, output that can't be written. A line on standard error tells what
  3  the set passes, but not all that was asked is done: an event is not enabled, a state does not exist, there are too many words
Of show and --bytes, which give no verdict: 0 if all of the set was shown or written, else 2.

The programs are target/bin/scrcheck and, for --state, target/bin/scrprobe, or the commands in the environment variables SCRCHECK and SCRPROBE.
"""
FLAGS = ("--help", "--version", "--binary", "--quiet", "--bytes")
SHORT = {"-h": "--help"}


@dataclass
class Asked:
    flags: set = field(default_factory=set)
    state: Optional[int] = None
    show: bool = False
    file: Optional[str] = None
    events: list = field(default_factory=list)

    def has(self, flag):
        return flag in self.flags


def bad(text):
    return BadInput(f"{text}\n{USAGE}\n./scr --help tells more")


def parsed(arguments):
    asked, plain, arguments = Asked(), [], list(arguments)
    while arguments:
        argument = arguments.pop(0)
        if argument == "--":
            plain += arguments
            arguments = []
        elif argument.startswith("-") and argument != "-":
            take_option(asked, argument, arguments)
        elif argument == "show" and not plain and not asked.show:
            asked.show = True
        else:
            plain.append(argument)
    if asked.flags & {"--help", "--version"}:
        return asked
    if not plain:
        raise bad("no file")
    asked.file, asked.events = plain[0], plain[1:]
    refuse_mixtures(asked)
    return asked


def take_option(asked, argument, following):
    """One option, and what follows it if it takes something."""
    name, equals, value = argument.partition("=")
    name = SHORT.get(name, name)
    if name == "--state":
        given = value if equals else following.pop(0) if following else ""
        if not re.fullmatch(r"[0-9]{1,10}", given) or int(given) >= 2**32:
            raise bad(f"--state takes the number of a state, below 2^32, and not {given!r}")
        if asked.state is not None:
            raise bad("--state can be given once")
        asked.state = int(given)
    elif name in FLAGS and not equals:
        asked.flags.add(name)
    else:
        raise bad(f"unknown option {argument}")


def refuse_mixtures(asked):
    whole = [name for name, given in {"--bytes": asked.has("--bytes"), "show": asked.show, "--state": asked.state is not None}.items() if given]
    if len(whole) > 1:
        raise bad(f"{whole[0]} and {whole[1]} don't go together")
    if asked.events and (asked.has("--bytes") or asked.show):
        raise bad(f"{whole[0]} takes no events")
