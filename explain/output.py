"""Standard output and standard error. What can't be written is no verdict: an answer that did not come out whole must not look like one."""
import os
import sys
import textwrap

WIDTH = 118


class NotWritten(Exception):
    """Standard output took not all of the answer, said in plain words."""


def put(data):
    """Writes text or bytes to standard output, at once."""
    if sys.stdout is None:
        raise NotWritten("standard output is closed, so the answer can't be written")
    stream = sys.stdout.buffer if isinstance(data, bytes) else sys.stdout
    try:
        stream.write(data)
        stream.flush()
    except UnicodeEncodeError as fault:
        letter = fault.object[fault.start : fault.start + 1]
        raise NotWritten(
            f"the explanation can't be written: the encoding {fault.encoding} has no {ascii(letter)}, which a name holds; "
            "PYTHONIOENCODING=utf-8 or --quiet helps"
        ) from fault
    except OSError as fault:
        # Python tries what it still holds once more at exit.
        os.dup2(os.open(os.devnull, os.O_WRONLY), sys.stdout.fileno())
        raise NotWritten(f"standard output took not all of the answer: {fault.strerror}") from fault


def put_lines(lines):
    put("".join(f"{line}\n" for line in lines))


def complain(text):
    """A line on standard error. If that is closed or full there is nowhere left to say so, and the exit status has to do."""
    try:
        sys.stderr.write(f"scr: {text}\n")
        sys.stderr.flush()
    except (AttributeError, OSError):
        pass


def wrapped(lines):
    """Each line indented, and broken where it is long."""
    return [
        part
        for line in lines
        for part in textwrap.wrap(
            line,
            WIDTH,
            initial_indent="  " + line[: len(line) - len(line.lstrip())],
            subsequent_indent="    " + line[: len(line) - len(line.lstrip())],
            break_long_words=False,
            break_on_hyphens=False,
        )
    ]
