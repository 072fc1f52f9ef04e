"""The explanation of each refusal that the program can print, over small sets; 15 it can't, since a run starts in the initial state."""
import unittest

from common import PROGRAMS, hexadecimal, parts, scr
from explain.refusals import CAUSES, Explainer
from explain.source import from_text
from words import assertion, at_most, both, either, equals, falls, no, rises, row, table, variable
from words import CONDITION_TABLE, CONTROLLED, EVENT_TABLE, FALSE, MODE_CLASS, MODE_TABLE, MONITORED, NONE, TERM, TRUE

GUARD, START, MODE, SPINDLE = range(4)
IDLE, CUT, HOLD = range(3)
NAMES = "# var 0 Guard\n# var 1 Start\n# var 2 Mode: 0 Idle, 1 Cut, 2 Hold\n# var 3 Spindle\n"

VARIABLES = [variable(MONITORED, 2), variable(MONITORED, 2), variable(MODE_CLASS, 3), variable(CONTROLLED, 2)]
MODE_ROWS = [
    row(IDLE, CUT, rises(equals(START, 1), equals(GUARD, 1))),
    row(CUT, HOLD, falls(equals(GUARD, 1))),
    row(HOLD, IDLE, rises(equals(GUARD, 1))),
]
SPINDLE_ROWS = [row(CUT, 1, TRUE), row(IDLE, 0, TRUE), row(HOLD, 0, TRUE)]
KEPT = assertion(either(no(equals(SPINDLE, 1)), equals(GUARD, 1)))


def mode_table(rows=None):
    return [table(MODE_TABLE, MODE, MODE), *sum(rows or MODE_ROWS, [])]


def spindle_table(rows=None):
    return [table(CONDITION_TABLE, SPINDLE, MODE), *sum(rows or SPINDLE_ROWS, [])]


def set_a(variables=None, modes=None, spindle=None, assertions=None):
    """Set A with another part."""
    return (variables or VARIABLES) + mode_table(modes) + spindle_table(spindle) + (KEPT if assertions is None else assertions)


def one_term(rows, sort=CONDITION_TABLE, size=2, initial=0):
    """An input of three values and a term with these rows."""
    return [variable(MONITORED, 3), variable(TERM, size, initial), table(sort, 1), *sum(rows, [])]


def constant_terms(count, tabled):
    """So many terms, and the tables of some in this order, each of a row of two words."""
    return [variable(TERM, 2)] * count + sum(([table(CONDITION_TABLE, term), *row(NONE, 0, TRUE)] for term in tabled), [])


class Refusals(unittest.TestCase):
    def check(self, words, verdict, *said, events=(), before=()):
        """The program's lines come first and unchanged; the explanation has the cause and says each of these."""
        for program in PROGRAMS:
            with self.subTest(program=program):
                given = (NAMES + hexadecimal(words)).encode()
                status, output, errors = scr("-", *events, given=given, program=program)
                printed, explanation = parts(output)
                # A run that stops after a pass has a status of its own.
                self.assertEqual((status, printed), (3 if before else 1, [*before, verdict]))
                # Not every set has all of the variables and values that are named.
                self.assertFalse([line for line in errors.splitlines() if "is not taken" not in line])
                number = int(verdict.split()[1])
                for part in (f"{number}: {CAUSES[number]}.", *said):
                    self.assertIn(part, explanation)
                self.assertNotIn("own reading", explanation)

    def test_1_no_words(self):
        self.check([], "REFUSE 1 0", "The set has 0 words; a set has 1 to 4,096.")

    def test_1_only_events(self):
        said = "The first word is of kind 11, so it is an event and nothing is left for the set: word 0 (line 5): B0000001, input event:"
        self.check([0xB0000001], "REFUSE 1 0", said)

    def test_1_too_many_words(self):
        self.check([0x11002000] * 4097, "REFUSE 1 4097", "The set has 4097 words")

    def test_1_more_words_than_are_read(self):
        said = "WORDS ARE LEFT OUT: only the first 8,192 of the 9,000 words handed in are read; those from word 8192 (line 5) on"
        self.check([0x11002000] * 9000, "REFUSE 1 8192", said)

    def test_2_early_end(self):
        said = "The set ends after 28 words.", "in assertion 0: the words end where a condition (kind 4, 5, 6, 7 or 9) must stand."
        self.check(set_a()[:-1], "REFUSE 2 28", *said)

    def test_2_an_event_ends_the_set(self):
        said = "The set ends after 28 words, at the first of kind 11: word 28 (event 1 of the command line): B0000001, input"
        self.check(set_a()[:-1], "REFUSE 2 28", said, events=["0=1"])

    def test_2_kind(self):
        said = "word 0 (line 5): 30000001, row: mode 0, value 1", "as the first word: kind 3 is not allowed here, where a variable, a table or"
        self.check([0x30000001], "REFUSE 2 0", *said)

    def test_2_kind_without_meaning(self):
        said = "word 4 (line 5): C0000000, kind 12, which no word has", "after variable 3 Spindle: kind 12 is not allowed here"
        self.check(VARIABLES + [0xC0000000], "REFUSE 2 4", *said)

    def test_2_condition_for_an_event(self):
        words = VARIABLES + [table(MODE_TABLE, MODE, MODE), *row(IDLE, CUT, equals(GUARD, 1))]
        said = "in row 0 of the table of variable 2 Mode: kind 4 is not allowed here, where an event (kind 7, 8 or 9) must stand"
        self.check(words, "REFUSE 2 6", said, "word 6 (line 5): 40000001, test: variable 0 Guard equals 1")

    def test_2_table_without_a_row(self):
        words = VARIABLES + [table(MODE_TABLE, MODE, MODE)] * 2
        self.check(words, "REFUSE 2 5", "as the first row of the table of variable 2 Mode: kind 2 is not allowed here, where a row must stand")

    def test_2_after_a_table(self):
        words = set_a(assertions=[0x40000001])
        self.check(words, "REFUSE 2 24", "after row 2 of the table of variable 3 Spindle: kind 4 is not allowed here, where a row, a table or an")

    def test_2_after_an_assertion(self):
        self.check(set_a() + [0x23030200], "REFUSE 2 29", "after assertion 0: kind 2 is not allowed here, where an assertion must stand")

    def test_2_spare_bits(self):
        said = "30000101, row: mode 0, value 1, spare bits 00000100", "spare bits are not zero: 00000100"
        self.check(VARIABLES + [table(MODE_TABLE, MODE, MODE), 0x30000101], "REFUSE 2 5", *said)

    def test_3_variable(self):
        said = "variable: class 5, size 1, initial value 1", "class 5 is none of 1 to 4; size 1 is not from 2 to 256; initial value 1 is not below"
        self.check([variable(5, 1, 1)], "REFUSE 3 0", *said)

    def test_3_mode_class(self):
        self.check([variable(MODE_CLASS, 256)], "REFUSE 3 0", "size 256 is not from 2 to 255")

    def test_3_table(self):
        said = "table: type 4, of variable 4, reads the modes of variable 9", "type 4 is none of 1 to 3; there is no variable 4; there is no class 9"
        self.check(VARIABLES + [table(4, 4, 9)], "REFUSE 3 4", *said)

    def test_3_row(self):
        words = VARIABLES + [table(MODE_TABLE, MODE, MODE), *row(3, 3, FALSE)]
        self.check(words, "REFUSE 3 5", "mode 3 is not below the class's size 3; value 3 is not below the size 3 of variable 2")

    def test_3_mode_without_class(self):
        words = VARIABLES + [table(CONDITION_TABLE, SPINDLE), *row(0, 0, TRUE)]
        self.check(words, "REFUSE 3 5", "mode 0 is not 255 in a table without class")

    def test_3_test(self):
        words = VARIABLES + assertion([0x40220003])
        self.check(words, "REFUSE 3 5", "in assertion 0: test 2 is neither 0 nor 1; value 3 is not below the size 3 of variable 2")

    def test_3_test_of_no_variable(self):
        self.check(VARIABLES + assertion(equals(4, 0)), "REFUSE 3 5", "there is no variable 4")

    def test_3_true_as_an_event(self):
        words = VARIABLES + [table(MODE_TABLE, MODE, MODE), *row(IDLE, CUT, TRUE)]
        self.check(words, "REFUSE 3 6", "the constant true is no event", "90000001, constant: true")

    def test_3_change(self):
        words = VARIABLES + [table(MODE_TABLE, MODE, MODE), *row(IDLE, CUT, [0x83000000])]
        self.check(words, "REFUSE 3 6", "change 3 is neither 1 nor 2", "83000000, change: 3")

    def test_3_assertion(self):
        self.check(set_a(assertions=[0xA2000000]), "REFUSE 3 24", "assertion type 2 is not 1")

    def test_4_variables(self):
        self.check([variable(MONITORED, 2)] * 33, "REFUSE 4 32", "one over the limit of 32 variables")

    def test_4_rows(self):
        words = one_term([row(NONE, 0, TRUE)] * 65)
        self.check(words, "REFUSE 4 131", "after row 63 of the table of variable 1 Start: one over the limit of 64 rows a table")

    def test_4_assertions(self):
        self.check(VARIABLES[:2] + assertion(TRUE) * 33, "REFUSE 4 66", "after assertion 31: one over the limit of 32 assertions")

    def test_4_depth(self):
        words = VARIABLES[:2] + assertion([0x50000000] * 16 + TRUE)
        self.check(words, "REFUSE 4 19", "in assertion 0: one over the limit of 16 levels of a formula")

    def test_5_monitored(self):
        self.check(VARIABLES + [table(EVENT_TABLE, GUARD)], "REFUSE 5 4", "variable 0 is monitored")

    def test_5_two_tables(self):
        words = set_a(assertions=[table(CONDITION_TABLE, SPINDLE)])
        self.check(words, "REFUSE 5 24", "variable 3 has a table already")

    def test_5_type(self):
        self.check(VARIABLES + [table(EVENT_TABLE, MODE, MODE)], "REFUSE 5 4", "type 2 doesn't fit a mode class")

    def test_5_type_of_a_controlled_variable(self):
        self.check(VARIABLES + [table(MODE_TABLE, SPINDLE, MODE)], "REFUSE 5 4", "type 1 doesn't fit a controlled variable")

    def test_5_class(self):
        self.check(VARIABLES + [table(CONDITION_TABLE, SPINDLE, GUARD)], "REFUSE 5 4", "variable 0 is no mode class")

    def test_5_class_of_another(self):
        self.check(VARIABLES + [table(MODE_TABLE, MODE)], "REFUSE 5 4", "a table of type 1 must read its own variable 2")

    def test_5_of_a_lower_variable(self):
        # 21 is tested after 5.
        for defined, reason in {
            table(CONDITION_TABLE, GUARD): "variable 0 is monitored",
            table(MODE_TABLE, MODE, MODE): "variable 2 has a table already",
        }.items():
            self.check(set_a(assertions=[defined]), "REFUSE 5 24", f"after row 2 of the table of variable 3 Spindle: {reason}.")
        self.check(VARIABLES + spindle_table() + [table(EVENT_TABLE, MODE, MODE)], "REFUSE 5 11", "type 2 doesn't fit a mode class.")

    def test_6(self):
        self.check(VARIABLES, "REFUSE 6 2", "word 2 (line 5): 12003000, variable:", "Variable 2 Mode, a mode class, has no table.")

    def test_6_controlled(self):
        words = set_a()[:17]
        self.check(words, "REFUSE 6 3", "Variable 3 Spindle, a controlled variable, has no table. Each variable but the monitored ones needs one.")

    def test_7(self):
        words = one_term([row(NONE, 1, TRUE)], initial=1)
        self.check(words, "REFUSE 7 1", "13002001, variable: class 3 term, size 2, initial value 1", "must be 0")

    def test_8(self):
        words = [variable(MONITORED, 256), variable(MONITORED, 256), variable(MONITORED, 2)]
        said = "At variable 2 Mode the product", "variable 1 Start: 256 x 256 = 65536 variable 2 Mode: 65536 x 2 = 131072"
        self.check(words, "REFUSE 8 2", *said)

    def test_9_itself(self):
        words = set_a(spindle=[row(CUT, 1, equals(SPINDLE, 0))] + SPINDLE_ROWS[1:])
        said = "(one in the cycle)", "variable 3 Spindle reads variable 3 Spindle by word 19 (line 5): 40300000, test:"
        self.check(words, "REFUSE 9 3 1", *said)

    def test_9_two(self):
        words = [variable(MONITORED, 2), variable(TERM, 2), variable(MODE_CLASS, 2)]
        words += [table(CONDITION_TABLE, 1, 2), *row(NONE, 0, TRUE)]
        words += [table(MODE_TABLE, 2, 2), *row(0, 1, rises(equals(1, 1), equals(0, 0)))]
        said = (
            "(2 in the cycle)",
            "variable 1 Start reads variable 2 Mode by word 3 (line 5): 23010200, table:",
            "variable 2 Mode reads variable 1 Start by word 9 (line 5): 40100001, test:",
        )
        self.check(words, "REFUSE 9 1 2", *said)

    def test_10(self):
        said = (
            "No row of variable 3 Spindle's table holds in state 8",
            "0 Guard 0 1 Start 0 2 Mode 2 (Hold) 3 Spindle ? by its condition table",
            "the condition table of variable 3 Spindle, by the modes of variable 2 Mode (word 17, line 5)",
            "row 1 does not hold, its mode is another: mode 0 (Idle): true, gives 0",
        )
        self.check(set_a(spindle=SPINDLE_ROWS[:2]), "REFUSE 10 0 8 3", *said)

    def test_10_behind_another_condition_variable(self):
        words = [variable(MONITORED, 3), variable(TERM, 2), variable(TERM, 2)]
        words += [table(CONDITION_TABLE, 1), *row(NONE, 0, at_most(0, 1)), *row(NONE, 1, no(at_most(0, 1)))]
        words += [table(CONDITION_TABLE, 2), *row(NONE, 0, equals(1, 0))]
        self.check(words, "REFUSE 10 0 2 2", "0 Guard 2 1 Start 1 by its condition table 2 Mode ? by its condition table")

    def test_11(self):
        words = set_a(spindle=SPINDLE_ROWS + [row(CUT, 1, TRUE)])
        said = (
            "Two rows of variable 3 Spindle's table hold in state 4.",
            "0 Guard 0 1 Start 0 2 Mode 1 (Cut) 3 Spindle ?",
            "row 0 (word 18, line 5): mode 1 (Cut): true, gives 1 words 18 to 19: 30100001 90000001",
            "row 3 (word 24, line 5): mode 1 (Cut): true, gives 1 words 24 to 25: 30100001 90000001",
            "They give the same value, which counts as an overlap too.",
        )
        self.check(words, "REFUSE 11 0 4 3 0 3", *said)

    def test_12(self):
        words = set_a(modes=MODE_ROWS + [row(HOLD, CUT, rises(equals(GUARD, 1), equals(START, 1)))])
        said = (
            "Two rows of variable 2 Mode's table hold in one step: in state 10, when the input event variable 0 Guard to 1 (B0000001) happens",
            "0 Guard 0 1 1 Start 1 1 2 Mode 2 (Hold) ? 3 Spindle 0 ? by its condition table",
            "row 2 (word 13, line 5): mode 2 (Hold): @T(Guard=1), gives 0 (Idle) words 13 to 16: 30200000 81000000 40000001 90000001",
            "row 3 (word 17, line 5): mode 2 (Hold): @T(Guard=1) WHEN Start=1, gives 1 (Cut)",
            "They give different values.",
        )
        self.check(words, "REFUSE 12 10 0 1 2 2 3", *said)

    def test_12_through_a_mode_after(self):
        words = VARIABLES[:3] + [variable(TERM, 2), table(MODE_TABLE, MODE, MODE), *sum(MODE_ROWS, [])]
        words += [table(EVENT_TABLE, 3), *row(NONE, 1, rises(equals(MODE, HOLD))), *row(NONE, 0, falls(equals(GUARD, 1)))]
        said = "in state 5, when the input event variable 0 Guard to 0 (B0000000)", "2 Mode 1 (Cut) 2 (Hold) 3 Spindle 0 ?"
        self.check(words, "REFUSE 12 5 0 0 3 0 1", *said)

    def test_13(self):
        words = set_a(assertions=KEPT + assertion(both(equals(MODE, CUT), TRUE)))
        said = (
            "Assertion 1 is false in the initial state, 0.",
            "assertion 1 (word 29, line 5): Mode=Cut and true words 29 to 32: A1000000 60000000 40200001 90000001",
            "0 Guard 0 1 Start 0 2 Mode 0 (Idle) 3 Spindle 0 by its condition table",
        )
        self.check(words, "REFUSE 13 1", *said)

    def test_14(self):
        words = set_a(modes=[row(IDLE, CUT, rises(equals(START, 1)))] + MODE_ROWS[1:])
        said = (
            "Assertion 0 is not kept: it is true in state 0, and it is false after the input event variable 1 Start to 1 (B0100001).",
            "assertion 0 (word 24, line 5): not Spindle=1 or Guard=1",
            "0 Guard 0 0 1 Start 0 1 2 Mode 0 (Idle) 1 (Cut) 3 Spindle 0 1 by its condition table",
            "State 0 is the initial one, so a run breaks the assertion at once.",
        )
        self.check(words, "REFUSE 14 0 0 1 1", *said)

    def test_14_under_earlier_ones(self):
        words = set_a(assertions=KEPT + assertion(no(equals(MODE, HOLD))))
        said = (
            "it and the earlier ones are true in state 5, and it is false after the input event variable 0 Guard to 0",
            "So the assertion may still be true of all states that a run reaches.",
        )
        self.check(words, "REFUSE 14 1 5 0 0", *said)

    def test_15_is_told_though_no_program_prints_it(self):
        told = Explainer(from_text(hexadecimal(set_a()))).refusal(15, [12])
        self.assertEqual(told[0], "15: no such state.")
        self.assertIn("There is no state 12: the typed states are 0 to 11.", told[1])

    def test_16(self):
        done = ["PASS 12 24 1", "0 0 1 1"]
        said = (
            "Event 1 of the list is not done: variable 0 Guard has the value 1 already.",
            "word 30 (event 2 of the command line): B0000001, input event: variable 0 Guard to 1",
            "It comes in state 1: variable value 0 Guard 1 1 Start 0",
        )
        self.check(set_a(), "REFUSE 16 1", *said, events=["0=1", "B0000001"], before=done)

    def test_16_for_each_reason(self):
        reasons = {
            "B0000000": "variable 0 Guard has the value 0 already",
            "B0000101": "spare bits are not zero: 00000100",
            "9=0": "there is no variable 9",
            "2=1": "variable 2 Mode is not monitored",
            "1=2": "value 2 is not below the size 2 of variable 1 Start",
        }
        for event, reason in reasons.items():
            said = f"Event 0 of the list is not done: {reason}.", "It comes in state 0:"
            self.check(set_a(), "REFUSE 16 0", *said, events=[event], before=["PASS 12 24 1"])
        said = "Event 1 of the list is not done: it is of kind 1, not 11."
        self.check(set_a(), "REFUSE 16 1", said, events=["0=1", "11002000"], before=["PASS 12 24 1", "0 0 1 1"])

    def test_17(self):
        words = set_a() + [0xB0000001, 0xB0000000] * 2049
        self.check(words, "REFUSE 17 4097", "There are 4,098 event words; a run takes 4,096.", before=["PASS 12 24 1"])

    def test_21(self):
        said = (
            "word 11 (line 5): 21020200, table: type 1 mode, of variable 2 Mode, reads the modes of variable 2 Mode It is refused after row 2 of "
            "the table of variable 3 Spindle: variable 2 is lower than variable 3 of the table before.",
            "The table before: word 4 (line 5): 23030200, table: type 3 condition, of variable 3 Spindle, reads the modes of variable 2 Mode.",
            "Tables are to stand in rising number of their variables. Move the table of variable 2 Mode, its rows with it, to before the table of "
            "variable 3 Spindle (word 4, line 5).",
        )
        self.check(VARIABLES + spindle_table() + mode_table() + KEPT, "REFUSE 21 11", *said)

    def test_21_before_the_rows_are_read(self):
        # Neither their end nor what is wrong with them counts.
        for rows in ([], row(0, 5, []), row(NONE, 0, TRUE), [table(CONDITION_TABLE, 0)]):
            words = constant_terms(3, [2]) + [table(CONDITION_TABLE, 1), *rows]
            self.check(words, "REFUSE 21 6", "word 6 (line 5): 2301FF00, table:", "The table before: word 3 (line 5): 2302FF00, table:")

    def test_21_at_the_third_table(self):
        said = "The table before: word 7 (line 5): 2303FF00, table:", "to before the table of variable 3 Spindle (word 7, line 5)."
        self.check(constant_terms(4, [1, 3, 2]), "REFUSE 21 10", *said)

    def test_21_belongs_before_the_first_table_of_a_higher_variable(self):
        said = "The table before: word 10 (line 5): 2303FF00, table:", "to before the table of variable 2 Mode (word 7, line 5)."
        self.check(constant_terms(4, [0, 2, 3, 1]), "REFUSE 21 13", *said)

    def test_2_and_3_come_before_21(self):
        words = VARIABLES + spindle_table()
        self.check(words + [table(MODE_TABLE, MODE, MODE) | 1], "REFUSE 2 11", "spare bits are not zero: 00000001.")
        self.check(words + [table(4, MODE, MODE)], "REFUSE 3 11", "type 4 is none of 1 to 3.")

    def test_a_witness_that_is_none_is_not_explained(self):
        for number, carried in {2: [5], 6: [1], 9: [3, 1], 10: [0, 1, 3], 12: [10, 0, 1, 2, 2, 3], 14: [0, 0, 1, 1], 16: [0], 21: [17], 40: [1]}.items():
            told = Explainer(from_text(hexadecimal(set_a()))).refusal(number, carried)
            self.assertIn("does not find its witness", told[-1])


if __name__ == "__main__":
    unittest.main()
