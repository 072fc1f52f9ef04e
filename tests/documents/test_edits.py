"""docs/TESTING.md names every must-fail edit, and none that is gone. An edit is named crate/label, by its file crates/CRATE/must-fail/LABEL.edit."""
import glob
import os
import re
import unittest

ROOT = os.path.dirname(os.path.dirname(os.path.dirname(os.path.abspath(__file__))))


def text_of(path):
    with open(path, encoding="utf-8") as opened:
        return opened.read()


def edits():
    paths = glob.glob(os.path.join(ROOT, "crates", "*", "must-fail", "*.edit"))
    return {f"{path.split(os.sep)[-3]}/{os.path.basename(path).removesuffix('.edit')}" for path in paths}


class Edits(unittest.TestCase):
    def test_each_is_told(self):
        crates = "|".join(sorted(os.listdir(os.path.join(ROOT, "crates"))))
        told = set(re.findall(rf"`((?:{crates})/\w+)`", text_of(os.path.join(ROOT, "docs", "TESTING.md"))))
        there = edits()
        self.assertGreater(len(there), 50)
        self.assertEqual([], sorted(there - told), "edits that docs/TESTING.md does not tell of")
        self.assertEqual([], sorted(told - there), "edits that are not there")


if __name__ == "__main__":
    unittest.main()
