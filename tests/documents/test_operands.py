"""The table of operand counts stands in four places, with the same counts and the same names of kinds: the array of the code and the list of its definition,
whose equality is proved but not their names; docs/FORMAT.md; and what ./scr explains formulas by."""
import os
import re
import sys
import unittest

ROOT = os.path.dirname(os.path.dirname(os.path.dirname(os.path.abspath(__file__))))
sys.path.insert(0, ROOT)
from explain import words as w  # noqa: E402

KINDS = 16


def text_of(name):
    with open(os.path.join(ROOT, name), encoding="utf-8") as opened:
        return opened.read()


def laid_out(name, start, end, line):
    """The entries of a table that has a line a kind: number, count and name."""
    table = text_of(name).split(start, 1)[1].split(end, 1)[0]
    found = [re.fullmatch(line, entry.strip()) for entry in table.strip().splitlines()]
    return [(int(entry["kind"]), int(entry["count"]), entry["name"] or "") for entry in found]


def of_code():
    return laid_out("crates/word/src/lib.rt", "const OPERANDS: [u32; 16] = [\n", "];", r"(?P<count>\d), // (?P<kind>\d+)(, (?P<name>.+))?")


def of_definition():
    line = r"(∷ )?(?P<count>\d)  -- (?P<kind>\d+)(, (?P<name>.+))?"
    return laid_out("crates/word/specs/Fields.antt", "\noperand_counts =\n", "    ∷ []", line)


def of_format():
    rows = [[cell.strip() for cell in row.split("|")[2:-1]] for row in re.findall(r"^\| (?:kind|word|operands) \|.*", text_of("docs/FORMAT.md"), re.MULTILINE)]
    kinds, names, counts = [row for row in rows if len(row) == KINDS]
    return [(int(kind), int(count), name) for kind, count, name in zip(kinds, counts, names)]


def of_explanations():
    return [(kind, count, w.KINDS.get(kind, "")) for kind, count in enumerate(w.OPERANDS)]


class Operands(unittest.TestCase):
    def test_a_line_for_each_kind(self):
        self.assertEqual(list(range(KINDS)), [kind for kind, _, _ in of_code()])

    def test_the_definition_has_the_names_of_the_code(self):
        self.assertEqual(of_code(), of_definition())

    def test_the_format_says_the_same(self):
        self.assertEqual(of_code(), of_format())

    def test_explanations_go_by_the_same(self):
        self.assertEqual(of_code(), of_explanations())


if __name__ == "__main__":
    unittest.main()
