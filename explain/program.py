"""The proved programs: scrcheck, which checks a set and runs its events, and scrprobe, which makes one call of one entry."""
import os
import re
import shlex
import signal
import subprocess

from explain.source import BadInput, as_bytes

ROOT = os.path.dirname(os.path.dirname(os.path.abspath(__file__)))
# A stack, in KiB, that is enough for scrcheck on every input, environment and arguments apart: tests/program runs it with no more.
STACK = 496
STEP, RUN, VALUES = 2, 3, 4
# Exit statuses, of scrcheck and of ./scr.
DONE, REFUSED, NO_VERDICT, STOPPED = 0, 1, 2, 3
# What scrprobe lends to a run: no state has this number, so it stands where no state was written.
UNWRITTEN = 4294967295


def command(name):
    """The command that runs a program: what the environment names, as SCRCHECK does, or the one that was built here."""
    given = shlex.split(os.environ.get(name.upper(), ""))
    built = os.path.join(ROOT, "target", "bin", name)
    if not given and not os.path.exists(built):
        raise BadInput(
            f"{built} is not there. It is proved and built by\n\n    cd {ROOT} && ./build {name}\n\n"
            f"rt comes with the Rattle toolchain. The environment variable {name.upper()} may name another program."
        )
    return given or [built]


def printed_by(name, data):
    """The lines that a program prints for these bytes, and its exit status."""
    program = command(name)
    try:
        answer = subprocess.run(program, input=data, stdout=subprocess.PIPE, check=False)
    except OSError as fault:
        raise BadInput(f"{program[0]}: {fault.strerror}") from fault
    if answer.returncode < 0:
        raise BadInput(f"{program[0]} gave no verdict: {killed(-answer.returncode)}")
    if answer.returncode == NO_VERDICT or not answer.stdout.endswith(b"\n"):
        raise BadInput(f"{program[0]} gave no verdict: it ended with status {answer.returncode} after {len(answer.stdout)} bytes of output")
    return answer.stdout.decode("ascii", "replace").splitlines(), answer.returncode


def killed(number):
    said = f"it was ended by signal {number} ({signal.strsignal(number) or 'unknown'})"
    if number in (signal.SIGSEGV, signal.SIGBUS):
        said += f". It needs about {STACK} KiB of stack; `ulimit -s` tells how many it may have, and `ulimit -s {2 * STACK}` gives it more"
    return said


class Verdict:
    """What scrcheck printed, line by line: a refusal; or a pass, a line for each event done and perhaps a refusal."""

    def __init__(self, lines):
        self.lines = lines
        numbers = [[int(part) if part.isdigit() else part for part in line.split()] for line in lines]
        self.passed = numbers[0][1:] if numbers[0][0] == "PASS" else None
        self.refused = numbers[-1][1:] if numbers[-1][0] == "REFUSE" else None
        self.done = [line for line in numbers if line[0] not in ("PASS", "REFUSE")]

    def status(self):
        """The exit status of scrcheck that goes with it."""
        return REFUSED if self.passed is None else STOPPED if self.refused else DONE

    def fits(self, events):
        """Whether nothing is missing: each event has its line, or a refusal tells where they stop."""
        in_order = [line[0] for line in self.done] == list(range(len(self.done)))
        return in_order and (len(self.done) == events if self.refused is None else len(self.done) <= events)


def checked(data, events):
    """The verdict of scrcheck on these bytes, with so many words among them that are events."""
    lines, status = printed_by("scrcheck", data)
    text = "".join(f"{line}\n" for line in lines)
    shape = re.fullmatch(r"(PASS( \d+){3}\n(\d+( \d+){3}\n)*)?(REFUSE( \d+)+\n)?", text)
    if shape is None or not Verdict(lines).fits(events):
        raise BadInput(f"{command('scrcheck')[0]} gave no verdict: what it printed is none, or cut short")
    verdict = Verdict(lines)
    # A program in its place may know no other status than 0.
    if status not in (DONE, verdict.status()):
        raise BadInput(f"{command('scrcheck')[0]} gave no verdict: it ended with status {status}, which is not that of {lines[0]!r}")
    return verdict


def asked_of(call, words, *arguments):
    """The first line of scrprobe's answer to a call, split, and the lent list where there is one."""
    lines, status = printed_by("scrprobe", as_bytes([call, len(words), *words, *arguments]))
    first, *lent = [line.split() for line in lines]
    if status != DONE or first[0] not in ("STATE", "VALUES", "REFUSE") or not all(part.isdigit() for line in [first[1:], *lent] for part in line):
        raise BadInput(f"{command('scrprobe')[0]} gave no answer: {lines[0]!r}")
    return first[0], list(map(int, first[1:])), [int(part) for line in lent for part in line]
