#!/usr/bin/env python3
"""Places of src/ (and proofs/) that today's Rattle may write better, point by point as docs/DESIGN-PASS.md names them.

    tools/places.py [ROOT]          how many, by point and rule
    tools/places.py -v [ROOT]       each place too

Point 2 is counted by tools/twins.py.
"""
import collections
import glob
import os
import re
import sys

SOURCE = "crates/*/src/*.rt"
PROOFS = "crates/*/proofs/**/*.antt"
SIGNATURE = re.compile(r"^ *(?:pub )?(?:extern \"C\" )?fn (\w+)[^{;]*?\((.*?)\)(.*?)^ *\{$", re.M | re.S)

# point, what is counted, where, the lines that count
LINES = [
    (1, "own enums", SOURCE, r"^ *(pub )?enum "),
    (1, "constants for kinds, classes, types, relations and changes", SOURCE,
     r"^(pub )?const (VARIABLE|TABLE|ROW|TEST|NOT|AND|OR|CHANGE|CONSTANT|ASSERTION|INPUT_EVENT|MONITORED|MODE_CLASS|TERM|CONTROLLED|MODE_TABLE|EVENT_TABLE|CONDITION_TABLE|EQUALS|AT_MOST|BECOMES_TRUE|BECOMES_FALSE|OF_STATES)\b"),
    (1, "constants for how a program ends", SOURCE, r"^(pub )?const (DONE|REFUSED|STOPPED|NO_VERDICT): u8"),
    (1, "refusals by number", SOURCE, r"(Refused|Wrong)\((\d+|k|number), |return [2-5];|^        \d+ => Refusal::|^        [1-6] => calls::"),
    (3, "loops over numbers", SOURCE, r"^ *(for \w+ in .*\.\.|while |loop )"),
    (4, "functions that convert, copy, compare or pick by hand", SOURCE,
     r"^ *(pub )?fn (wide|wide64|value64|long|copy|write_front|front|byte_at|word_in|word_of_bytes|of_bytes|least|lesser|stands_at|number_at|value_of|place_of|mask_of|mask_at|plane_at|trues_at|weight_of)\("),
    (4, "functions that print by hand", SOURCE, r"^ *(pub )?fn put(_\w+)?\(out"),
    (6, "a buffer with a place or a length beside it", SOURCE, r"^ *(pub )?fn \w+.*(out: &mut \[u8\], (at|on): usize)|^    pub count: usize,$"),
    (6, "places of the parts of a flat array", SOURCE, r"^pub const (READS|EVENT_READS|TOLD|TABLES|WEIGHTS|CLASSES|HELDS|NEEDED|EVENT_ENDS|PLACES|ORDER|COUNT|LEN|TURNS): usize"),
    (7, "choices by a table's type, passed on", SOURCE, r"^ *if (t|table\.\w+) == "),
    (8, "lines of proofs that import from below std", PROOFS, r"^use (mathlib|Prim|lib|native|borrow|denote)\."),
    (8, "answers that only ask the prover", PROOFS, r"^[\w-]+ (t )?c = search rules$"),
]


def places(root):
    for point, what, where, line in LINES:
        found = []
        for path in sorted(glob.glob(os.path.join(root, where), recursive=True)):
            for number, text in enumerate(open(path), 1):
                if re.search(line, text):
                    found.append("%s:%d %s" % (os.path.relpath(path, root), number, text.strip()))
        yield point, what, found


def contracts(root):
    """Facts that stand in the `requires` of three functions or more, and functions that take words and places apart."""
    facts, together = collections.defaultdict(list), []
    for path in sorted(glob.glob(os.path.join(root, SOURCE))):
        text = open(path).read()
        for head in SIGNATURE.finditer(text):
            name = "%s:%d %s" % (os.path.relpath(path, root), text.count("\n", 0, head.start()) + 1, head.group(1))
            if len(re.findall(r"\b(words|places|weights|order|kept|spots): &", head.group(2))) > 1:
                together.append(name)
            for clause in re.findall(r"requires\s*(?:\w+ )?\{(.*?)\}\n", head.group(3), re.S):
                for fact in re.split(r"\s×\s", clause):
                    facts[re.sub(r"[()\s]+", " ", fact).strip()].append(name)
    shared = ["%s: %d functions" % (fact, len(names)) for fact, names in sorted(facts.items()) if len(names) > 2]
    yield 5, "facts required by three functions or more", shared
    yield 5, "functions that take parts of a set's index apart", together


def main(root, every):
    found = sorted(list(places(root)) + list(contracts(root)), key=lambda place: place[0])
    for point, what, lines in found:
        print("%d  %4d  %s" % (point, len(lines), what))
        if every:
            for line in lines:
                print("          " + line)


if __name__ == "__main__":
    given = [a for a in sys.argv[1:] if a != "-v"]
    main(given[0] if given else ".", "-v" in sys.argv)
