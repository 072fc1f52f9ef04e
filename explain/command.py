"""What ./scr does, and the exit status that tells how it went."""
import sys

from explain.arguments import HELP, parsed
from explain.doubts import Doubts
from explain.events import add_events
from explain.one_state import State
from explain.output import NotWritten, complain, put, put_lines, wrapped
from explain.passes import Pass
from explain.program import DONE, NO_VERDICT, REFUSED, STOPPED, checked
from explain.refusals import Explainer
from explain.show import is_whole, shown
from explain.source import BadInput, from_data
from explain.version import version_line

# 8,192 words with long comments have less; a device that never ends must not fill the memory.
MOST_BYTES = 1 << 22
# Of each kind.
MOST_WARNINGS = 20


def main(arguments):
    """The exit status. Whatever goes wrong, but for a refusal, is no verdict, with a line on standard error."""
    try:
        return answer(parsed(arguments))
    except (BadInput, NotWritten) as fault:
        complain(fault)
    except MemoryError:
        complain("the memory does not suffice")
    except KeyboardInterrupt:
        complain("interrupted")
    except Exception as fault:
        complain(f"no verdict, for a reason that was not foreseen: {type(fault).__name__}: {fault}")
    return NO_VERDICT


def answer(asked):
    if asked.has("--help"):
        put(HELP)
        return DONE
    if asked.has("--version"):
        put_lines([version_line()])
        return DONE
    source = from_data(data_of(asked.file), asked.has("--binary"))
    doubts = Doubts(source)
    left_out = source.drop_events() if asked.state is not None else 0
    add_events(source, asked.events)
    doubts.look_beyond(source)
    for warnings in (source.short, source.commented, source.misnamed):
        warn(warnings)
    if asked.has("--bytes"):
        return write_bytes(source, doubts)
    if asked.show:
        return show(source, doubts)
    return judge(source, doubts, asked, left_out)


def data_of(file):
    try:
        if file != "-":
            with open(file, "rb") as opened:
                data = opened.read(MOST_BYTES + 1)
        elif sys.stdin is None:
            raise BadInput("standard input is closed")
        else:
            data = sys.stdin.buffer.read(MOST_BYTES + 1)
    except (OSError, ValueError) as fault:
        raise BadInput(f"{file}: {getattr(fault, 'strerror', None) or fault}") from fault
    if len(data) > MOST_BYTES:
        raise BadInput(f"{file}: over {MOST_BYTES >> 20} MiB, which no set of tables has")
    return data


def warn(warnings):
    for warning in warnings[:MOST_WARNINGS]:
        complain(f"warning: {warning}")
    if len(warnings) > MOST_WARNINGS:
        complain(f"warning: and {len(warnings) - MOST_WARNINGS} more of this kind")


def write_bytes(source, doubts):
    reasons = doubts.none_written()
    if reasons:
        raise BadInput(" ".join(["nothing is written.", *reasons]))
    if not source.set_bytes():
        raise BadInput("nothing is written: there is no word of a set")
    put(source.set_bytes())
    return DONE


def show(source, doubts):
    above = wrapped(doubts.lines())
    put_lines([*above, *([""] if above else []), *shown(source)])
    if is_whole(source) and not doubts.cut:
        return DONE
    complain("the set is not shown whole: it is cut short, or doesn't read to its end")
    return NO_VERDICT


def judge(source, doubts, asked, left_out):
    """The program's lines, then the explanation. Doubts are told even where nothing is to be explained."""
    state = State(source, asked.state, left_out) if asked.state is not None else None
    verdict = state.verdict() if state else checked(source.bytes(), len(source.events()))
    put_lines(verdict.lines)
    if asked.has("--quiet"):
        for line in doubts.lines():
            complain(line)
    else:
        put_lines(wrapped([*doubts.lines(), *told(source, verdict, state, bool(doubts.cut))]))
    if verdict.passed is None or doubts.cut:
        return REFUSED
    return STOPPED if verdict.refused or doubts.beyond else DONE


def told(source, verdict, state, is_cut):
    """The explanation. A fault in it must not alter the exit status, which tells the verdict."""
    try:
        return explanation(source, verdict, state, is_cut)
    except MemoryError:
        raise
    except Exception as fault:
        return [f"The verdict stands, but it can't be explained: {type(fault).__name__} {fault}"]


def explanation(source, verdict, state=None, is_cut=False):
    """What the lines say, in plain words."""
    from_state = state.number if state else None
    explainer = Explainer(source, verdict.done, from_state)
    refusal = explainer.refusal(verdict.refused[0], verdict.refused[1:]) if verdict.refused else []
    of_state = state.lines() if state else []
    if not verdict.passed:
        return [*refusal, *explainer.not_run(), *of_state]
    passed = Pass(source)
    return [*passed.counts(*verdict.passed, is_cut), *passed.start(), *of_state, *passed.events_done(verdict.done, from_state), *refusal]
