#!/usr/bin/env python3
"""Asks of every must-fail edit whether the fact that it names is what refused it.

rt calls an edit refused if anything in the crate is not proved with it. Each crates/CRATE/must-fail/LABEL.edit says what that must be, in a line:

    # must: FILE NAME

FILE is the file, and NAME the definition or the goal in it, that stand first in what rt prints of the edit. A file whose LABEL is a number makes several changes
at once and has a line for each, of which any may stand first; every other file has one line. This reads what `rt ci` or `rt must-fail` printed and asks that every edit has such a line and was refused, without a
reservation, by a fact of that name. An error that tells only of a name that is gone, of a step that finds nothing to rewrite, or of something that was refused
before, is no fact.

    python3 tests/edits/refused.py FILE [CRATE..]      what was printed is in the file, or in standard input if that is -; all crates, or those named
"""

import re
import sys
from pathlib import Path

ROOT = Path(__file__).resolve().parents[2]

REFUSED = "refused, as it must be: "

# rt prints so much of the first error.
CUT = 160

NO_FACT = (
    "was not admitted",
    "not in scope",
    "can be named",
    "has no field",
    "cannot be unfolded because",
    "is not a module",
    "`rw`: no occurrence",
    "`rw`: no part of the goal",
)


def wanted(label, text):
    """The files and names of the edit's lines, and what is wrong with their form."""
    lines = [line for line in text.splitlines() if line.startswith("# must:")]
    if not lines or len(lines) > 1 and not label.isdigit():
        return None, f"it has {len(lines)} lines '# must: FILE NAME', and not one"
    facts = [re.fullmatch(r"# must: (\S+) (\S+)", line) for line in lines]
    for line, fact in zip(lines, facts):
        if not fact:
            return None, f"not '# must: FILE NAME': {line}"
    return [fact.groups() for fact in facts], None


def tried(printed):
    """What was printed of each edit, by crate and label."""
    found = {}
    for line in printed.splitlines():
        told = re.match(r"rt: must-fail (\w+)/(\S+)\.edit: (.*)", line)
        if told:
            found[told[1], told[2]] = told[3]
    return found


def wrong(told, facts):
    """Why what was printed of an edit is not that one of the facts, a file and a name, refused it, or None."""
    if not told.startswith(REFUSED):
        return f"rt does not call it refused by a fact: {told[:CUT]}"
    first = told.removeprefix(REFUSED)
    place = re.match(r"(?:note: )?(?:\./)?(\S+?):\d+:\d+: (.*)", first)
    names = [name for file, name in facts if place and place[1] == file]
    if not names:
        return f"not in {' or '.join(file for file, _ in facts)}: {first}"
    if any(it in first for it in NO_FACT):
        return f"no fact: {first}"
    # an error begins with the name, a note of an open goal has it behind what is not proved
    named = re.match(r"error: `(.+)", place[2]) or re.match(r".*?\(`(.+)", place[2])
    found, is_whole, _ = named[1].partition("`") if named else ("", "`", "")
    if found in names if is_whole else len(first) == CUT and any(name.startswith(found) for name in names):
        return None
    return f"not by {' or '.join(names)}: {first}"


def main(crates, printed):
    found, faults, refused = tried(printed), [], 0
    for path in sorted(ROOT.glob("crates/*/must-fail/*.edit")):
        crate, label = path.parts[-3], path.stem
        if crates and crate not in crates:
            continue
        facts, fault = wanted(label, path.read_text())
        if not fault:
            told = found.get((crate, label))
            fault = wrong(told, facts) if told else "it was not tried"
        if fault:
            faults.append(f"{crate}/{label}: {fault}")
        else:
            refused += 1
    for fault in faults:
        print(fault)
    if faults or not refused:
        print(f"edits: {refused} refused by the fact that they name, {len(faults)} not", file=sys.stderr)
        return 1
    print(f"{refused} must-fail edits refused, each by the fact that it names")
    return 0


if __name__ == "__main__":
    if len(sys.argv) < 2:
        sys.exit(__doc__)
    sys.exit(main(sys.argv[2:], sys.stdin.read() if sys.argv[1] == "-" else Path(sys.argv[1]).read_text(errors="replace")))
