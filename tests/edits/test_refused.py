"""That refused.py tells an edit refused by the fact that it names from one that is not."""

import contextlib
import io
import tempfile
import unittest
from pathlib import Path

import refused

EDIT = """# one
# must: proofs/a/Answers.antt returns
file: src/lib.rt
old: a
new: b
"""

ERROR = "./proofs/a/Answers.antt:7:13: error: `returns`: `search`: no proof of `c.result ≡ 0` was found."
NOTE = "note: src/lib.rt:9:1: it is not proved that what the function ensures holds when it returns (`returns-then-x`)"


def said(first):
    return "refused, as it must be: " + first[: refused.CUT]


class Wanted(unittest.TestCase):
    def test_a_line(self):
        self.assertEqual(refused.wanted("label", EDIT), ([("proofs/a/Answers.antt", "returns")], None))

    def test_a_line_for_each_change(self):
        facts = [("proofs/a/Answers.antt", "returns"), ("src/lib.rt", "returns-then-x")]
        self.assertEqual(refused.wanted("1", EDIT + "# must: src/lib.rt returns-then-x\n"), (facts, None))

    def test_no_line_or_two(self):
        for text in (EDIT.replace("must", "may"), EDIT.replace("# must", "must"), EDIT + "# must: src/lib.rt returns\n"):
            self.assertIn("and not one", refused.wanted("label", text)[1])
        for text in (EDIT.replace("must", "may"), EDIT.replace("# must", "must")):
            self.assertIn("and not one", refused.wanted("1", text)[1])

    def test_another_form(self):
        for line in ("# must: returns", "# must: label proofs/a/Answers.antt returns", "# must:proofs/a/Answers.antt returns"):
            self.assertIn("not '# must: FILE NAME'", refused.wanted("label", line)[1])


class Wrong(unittest.TestCase):
    def test_an_error(self):
        self.assertIsNone(refused.wrong(said(ERROR), [("proofs/a/Answers.antt", "returns")]))

    def test_a_note(self):
        self.assertIsNone(refused.wrong(said(NOTE), [("src/lib.rt", "returns-then-x")]))

    def test_one_of_several(self):
        facts = [("src/lib.rt", "returns-then-x"), ("proofs/a/Answers.antt", "loop-i-init"), ("proofs/a/Answers.antt", "returns")]
        for first in (ERROR, NOTE):
            self.assertIsNone(refused.wrong(said(first), facts))
        self.assertIn("not by loop-i-init", refused.wrong(said(ERROR), facts[:2]))
        self.assertIn("not in src/lib.rt", refused.wrong(said(ERROR), facts[:1]))

    def test_a_note_that_says_more(self):
        for more in ("; `search` gave up at one of its limits", "; the facts known there allow values (`x` = `0`)"):
            self.assertIsNone(refused.wrong(said(NOTE + more), [("src/lib.rt", "returns-then-x")]))

    def test_another_name(self):
        for name in ("returns-2", "return", "search"):
            self.assertIn("not by", refused.wrong(said(ERROR), [("proofs/a/Answers.antt", name)]))
        for name in ("returns-then-x-2", "returns-then", "returns"):
            self.assertIn("not by", refused.wrong(said(NOTE), [("src/lib.rt", name)]))

    def test_another_file(self):
        self.assertIn("not in", refused.wrong(said(ERROR), [("proofs/b/Answers.antt", "returns")]))
        self.assertIn("not in", refused.wrong(said(NOTE), [("src/other.rt", "returns-then-x")]))

    def test_a_name_that_is_cut(self):
        long = NOTE.replace("returns-then-x", "returns-then-" + "x" * 90)
        self.assertIsNone(refused.wrong(said(long), [("src/lib.rt", "returns-then-" + "x" * 90)]))
        self.assertIn("not by", refused.wrong(said(long), [("src/lib.rt", "returns-else-" + "x" * 90)]))
        self.assertIn("not by", refused.wrong(said(long), [("src/lib.rt", "returns-then")]))

    def test_no_name(self):
        for first in (
            "proofs/a/Answers.antt:7:13: error: the file cannot be read",
            NOTE[: NOTE.index("returns-then-x")],
            "note: src/lib.rt:9:1: " + "it is not proved " * 20 + "(`returns`)",
        ):
            self.assertIsNotNone(refused.wrong(said(first), [(first.removeprefix("note: ").partition(":")[0], "returns")]))

    def test_no_fact(self):
        for why in ("`p` was not admitted", "`true` is not in scope", "it has no `returns` that can be named", "`rw`: no occurrence of the path's left endpoint"):
            self.assertIn("no fact", refused.wrong(said(f"proofs/a/Answers.antt:7:13: error: `returns`: {why}"), [("proofs/a/Answers.antt", "returns")]))

    def test_not_refused_by_a_fact(self):
        for told in (
            "refused, as it must be",
            f"refused, as it must be (only because a proof file names what the edit took away, so this says little of the contract): {ERROR}",
            f"refused, as it must be (only by a limit of the prover, which gave no verdict): {ERROR}",
            "NOT REFUSED: the crate is still proved with this edit",
            "BAD EDIT: an 'old:' text is in src/lib.rt 0 times, and not once",
            "NOT TRIED: its check was killed, most likely for memory, so nothing is known of it: run this again",
        ):
            self.assertIn("rt does not call it", refused.wrong(told, [("proofs/a/Answers.antt", "returns")]))


class Main(unittest.TestCase):
    def status(self, printed, crates=()):
        """The status and what is printed, of a repository with the edits a/one and b/one."""
        with tempfile.TemporaryDirectory() as folder, contextlib.redirect_stdout(io.StringIO()) as out, contextlib.redirect_stderr(out):
            for crate in "ab":
                edits = Path(folder) / "crates" / crate / "must-fail"
                edits.mkdir(parents=True)
                (edits / "one.edit").write_text(EDIT)
            root, refused.ROOT = refused.ROOT, Path(folder)
            try:
                return refused.main(crates, printed), out.getvalue()
            finally:
                refused.ROOT = root

    def test_all(self):
        printed = "a proved\n" + "".join(f"rt: must-fail {crate}/one.edit: {said(ERROR)}\n" for crate in "ab") + "4 passed, 0 failed\n"
        self.assertEqual(self.status(printed), (0, "2 must-fail edits refused, each by the fact that it names\n"))

    def test_one_not_tried(self):
        printed = f"rt: must-fail a/one.edit: {said(ERROR)}\n"
        status, out = self.status(printed)
        self.assertEqual(status, 1)
        self.assertIn("b/one: it was not tried", out)
        self.assertEqual(self.status(printed, ["a"])[0], 0)
        self.assertEqual(self.status(printed, ["b"])[0], 1)

    def test_one_refused_by_another(self):
        status, out = self.status("".join(f"rt: must-fail {crate}/one.edit: {said(first)}\n" for crate, first in (("a", ERROR), ("b", NOTE))))
        self.assertEqual(status, 1)
        self.assertIn("b/one: not in proofs/a/Answers.antt", out)
        self.assertNotIn("a/one", out)

    def test_none(self):
        self.assertEqual(self.status("", ["c"])[0], 1)


if __name__ == "__main__":
    unittest.main()
