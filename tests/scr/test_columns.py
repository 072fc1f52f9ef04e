"""Cells in columns, and formulas broken into lines."""
import random
import re
import unittest

import common  # its path leads to explain
from explain.columns import aligned, broken, filled


class Columns(unittest.TestCase):
    def test_a_cell_of_lines_stays_in_its_column(self):
        rows = [["row", "event", "value"], ["0", ["first", "or second"], "shut"], ["10", "third", ""]]
        self.assertEqual(aligned(rows), ["  row  event      value", "  0    first      shut", "       or second", "  10   third"])

    def test_lines_are_filled_to_their_width(self):
        self.assertEqual(filled(["aa", "bb", "cc"], 5), ["aa bb", "cc"])
        self.assertEqual(filled(["aa", "bb", "cccccc"], 4), ["aa", "bb", "cccccc"])


class Broken(unittest.TestCase):
    def condition(self, depth):
        if depth == 0 or random.random() < 0.1:
            return random.choice(["a=1", "AVariableOfALongName=itsvalue", "b<=22"])
        if random.random() < 0.2:
            return f"not ({self.condition(depth - 1)})"
        return random.choice([" and ", " or "]).join(f"({self.condition(depth - 1)})" for _ in range(random.randint(2, 4)))

    def test_nothing_is_lost_and_lines_are_short(self):
        random.seed(1)
        for _ in range(300):
            text = f"@T({self.condition(random.randint(1, 5))}) WHEN {self.condition(random.randint(0, 4))}"
            lines = broken(text, 90)
            self.assertEqual(" ".join(line.strip() for line in lines), text)
            self.assertLessEqual(max(map(len, lines)), 90)
            self.assertFalse([line for line in lines[1:] if not re.match(" *(and|or|WHEN) ", line)])

    def test_what_has_no_operator_stays_whole(self):
        self.assertEqual(broken("a" * 200, 90), ["a" * 200])
        self.assertEqual(broken(f"or=1 and {'a' * 200}", 90), ["or=1", f"and {'a' * 200}"])

    def test_outermost_operators_come_first(self):
        self.assertEqual(broken("(a=1 and b=1) or (c=1 and d=1)", 20), ["(a=1 and b=1)", "or (c=1 and d=1)"])
        self.assertEqual(broken("(a=1 and b=1) or (c=1 and d=1)", 12), ["(a=1", "  and b=1)", "or (c=1", "  and d=1)"])


if __name__ == "__main__":
    unittest.main()
