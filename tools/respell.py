#!/usr/bin/env python3
"""Brings this repository's own names to the spelling of Rattle's library: words in snake case, types in camel case.

    python3 tools/respell.py [TOP]

A name is respelled if a file of specs/ or a file of laws in proofs/ has it, it begins with a small letter, and it has a dash or a capital. Names of the library and
of the goals that Rattle makes stay, and so do all names of the code. A law that would get the name of a definition has _lem behind it, as in the library; what
else would fall together has a name in FALL_TOGETHER. A name is respelled in crates/ wherever it stands, elsewhere only between backticks. What has been respelled
already is left as it is.
"""

import re
import subprocess
import sys
from pathlib import Path

TOP = Path(sys.argv[1] if len(sys.argv) > 1 else Path(__file__).resolve().parents[1])

# Laws with the name of a definition.
LAWS = """add-at among-at by-type change-at condition-by condition-end condition-reads condition-rows event-by event-end event-ends event-reads event-rows few-states
first-false formula-at given-after held-part initial-number lanes-to lead-to mask-at moves-back no-rows part-at part-length read-typed read-words rows-by settled-by
size-in start-of step-at trues-from variable-at variable-lanes verdict-says""".split()

# Computed cases with the name of the set that they are about.
CASES = "set-A fourth-mode-row no-hold-row second-cut-row start-when-true spindle-tests-itself".split()

FALL_TOGETHER = {
    **{name: name.replace("-", "_") + "_lem" for name in LAWS},
    **{name: name.replace("-", "_").lower() + "_case" for name in CASES},
    "conditionTable": "condition_table_read",
    "eventTable": "event_table_read",
    "inOrder": "table_in_order",
    "next-table": "at_next_table",
    "none-yet": "none_yet_there",
    "one-value": "one_valuation",
    "word-numbers": "word_number_count",
}

# Names that are respelled in one file only, since they are other names elsewhere.
IN_ONE_FILE = {
    "crates/meaning/specs/SetA.antt": {"passes": "PassesWith", "refused": "RefusedWith"},
    "crates/meaning/specs/MeaningCases.antt": {"passes": "PassesWith"},
    "crates/meaning/specs/ReadingCases.antt": {"eventTable": "event_table_words"},
}

WORD = re.compile(r"[^\s(){}.,;]+")
ODD = re.compile(r"[a-z][\w']*(?:-[\w']+)*")
HUMP = re.compile(r"([a-z0-9'])([A-Z])")
NAME = re.compile(r"(?<![\w'◌-])[a-z][\w']*(?:-[\w']+)*(?![\w'◌]|-[\w'])")
COMMENT = re.compile(r"(^|\s)--(\s.*|-.*|$)")
USE = re.compile(r"\s*(?:pub )?(?:ghost )?use (\S+?)\.\{(.*)\}")


def snake(name):
    # the library calls getD so
    return HUMP.sub(r"\1_\2", name.replace("getD", "get_or")).replace("-", "_").lower()


def is_of_a_function(path):
    """A file of the proof of one function, whose goals Rattle names."""
    return "proofs" in path.parts and path.parent.name != "proofs"


def of_the_library(text, crates):
    """The names that a file takes from the library."""
    names = set()
    for line in text.splitlines():
        use = USE.match(COMMENT.sub("", line))
        if use and use[1].split(".")[1:2] not in [[c] for c in crates]:
            names |= {item.split(" as ")[0].strip() for item in use[2].split(",")}
    return names


def own_modules(text, crates):
    """What a file calls modules of this repository."""
    called = re.findall(r"use Rattle\.(\w+)\.\S+ as (\w+)", text)
    return {name for crate, name in called if crate in crates}


def own_names(antt, crates):
    names, goals = set(), set()
    for path in antt:
        text = path.read_text()
        library = of_the_library(text, crates)
        for line in text.splitlines():
            line = COMMENT.sub("", line)
            if is_of_a_function(path):
                goals |= set(re.findall(r"goal\.([^\s(){}.,;]+)", line))
            else:
                names |= {w for w in WORD.findall(line) if ODD.fullmatch(w) and ("-" in w or HUMP.search(w))} - library
    return names - goals


def respelled(text, names, library=frozenset(), own=frozenset()):
    """The text with its names respelled: those that it takes from the library only behind the name of a module of this repository."""

    def spelled(found):
        behind = re.search(r"(\w+)\.$", text[max(0, found.start() - 40) : found.start()])
        if found[0] in library and not (behind and behind[1] in own):
            return found[0]
        return names.get(found[0], found[0])

    return NAME.sub(spelled, text)


def main():
    tracked = [TOP / line for line in subprocess.run(["git", "-C", TOP, "ls-files"], capture_output=True, text=True, check=True).stdout.splitlines()]
    tracked = [path for path in tracked if path.is_file()]
    crates = {path.name for path in (TOP / "crates").iterdir()}
    antt = [path for path in tracked if path.suffix == ".antt"]
    names = {name: FALL_TOGETHER.get(name, snake(name)) for name in own_names(antt, crates)}
    changed = 0
    for path in tracked:
        here = names | IN_ONE_FILE.get(str(path.relative_to(TOP)), {})
        if path.suffix in (".antt", ".rt", ".edit"):
            before = path.read_text()
            after = respelled(before, here, of_the_library(before, crates), own_modules(before, crates))
        elif path.suffix == ".md" or path.suffix in (".py", ".rs") and "tests" in path.parts:
            before = path.read_text()
            after = re.sub(r"`[^`\n]+`", lambda quoted: respelled(quoted[0], here), before)
        else:
            continue
        if after != before:
            path.write_text(after)
            changed += 1
    print(f"{len(names)} names, {changed} files")


if __name__ == "__main__":
    main()
