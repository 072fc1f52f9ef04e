"""A set cut short: the first word of kind 11 ends the set wherever it stands. If what follows is no list of events, ./scr says so before all
else, does not let the rest pass for the whole, and writes no bytes of it."""
import os
import sys
import unittest

from common import PROGRAMS, ROOT, SET_A, ScrCase, scr, text_of_set_a

sys.path.append(os.path.join(ROOT, "tests", "program"))

from inputs import biggest

BIGGEST = biggest()
LOUD = "THE SET IS CUT SHORT"


def mistyped(old, new):
    text = text_of_set_a()
    assert old in text
    return text.replace(old, new, 1).encode()


class Cut(ScrCase):
    def loud(self, given, lines, *said):
        for program in PROGRAMS:
            explanation = self.printed(1, lines, "-", given=given, program=program)
            self.assertTrue(explanation.startswith(f"{LOUD}: {said[0]}"), explanation)
            for part in said[1:]:
                self.assertIn(part, explanation)
            self.assertNotIn("this set may be loaded", explanation)
        self.no_verdict(LOUD, "--bytes", "-", given=given)

    def test_an_assertion_mistyped(self):
        self.loud(
            mistyped("A1000000", "B1000000"),
            ["PASS 12 24 0", "REFUSE 16 0"],
            "word 24 (line 23), B1000000, is of kind 11, so the set ends before it, and all words from there on, 8 of them, were taken as events "
            "although word 25 (line 23), 70000000, is of kind 7 and is no event.",
            "The verdict is of the words before it alone, 24 of them.",
            "These words pass, but they may not be the whole set: do not load them.",
        )

    def test_a_table_mistyped(self):
        # Reading ends early, or a table is missing: the hint stands above the refusal.
        self.loud(mistyped("23030200", "B3030200"), ["REFUSE 6 3"], "word 17 (line 18), B3030200, is of kind 11", "has no table")

    def test_a_word_of_a_formula_mistyped(self):
        self.loud(mistyped("40100001", "B0100001"), ["REFUSE 2 7"], "word 7 (line 14), B0100001, is of kind 11", "7 words")

    def test_the_first_word_mistyped(self):
        self.loud(mistyped("11002000", "B1002000"), ["REFUSE 1 0"], "word 0 (line 8), B1002000, is of kind 11")

    def test_the_last_variable_mistyped(self):
        # Nothing follows it; but its spare bits tell that it is no event.
        said = "word 2 (line 1), B1002000,", "although its spare bits are not 0, 00002000, as no event has them"
        self.loud(b"11002000 11002000 B1002000", ["PASS 4 8 0", "REFUSE 16 0"], *said)

    def test_the_last_word_of_the_set_mistyped(self):
        # What follows are events; but the set is not complete before it.
        said = "word 28 (line 23), B0000001,", "although the set is not complete before it: the words end where a condition (kind 4, 5, 6,"
        self.loud(mistyped("40000001  # assertion 0", "B0000001  # assertion 0"), ["REFUSE 2 28"], *said)

    def test_a_broken_last_word_among_events(self):
        given = bytes.fromhex("00200011 010000B0 0000")
        said = "word 1 (byte 4), B0000001,", "although word 2 (the broken last word), 00000000, is of kind 0"
        self.loud(given, ["PASS 2 2 0", "0 0 1 1", "REFUSE 16 1"], *said)

    def test_names_that_went_with_the_rest_get_no_warning(self):
        self.assertEqual(scr("-", given=mistyped("A1000000", "B1000000"))[2], "")

    def test_told_on_standard_error_where_nothing_is_explained(self):
        status, output, errors = scr("--quiet", "-", given=mistyped("A1000000", "B1000000"))
        self.assertEqual((status, output), (1, "PASS 12 24 0\nREFUSE 16 0\n"))
        self.assertTrue(errors.startswith(f"scr: {LOUD}"), errors)

    def test_events_that_are_refused_cut_nothing(self):
        # Each is an event word, though of no enabled event.
        for events in ("B0000000", "B0200001", "B1000000", "B0000002", "B0000001 B0000100"):
            status, output, _ = scr("-", given=f"11002000 {events}".encode())
            self.assertEqual((status, LOUD in output), (3, False), events)
            self.assertEqual(scr("--bytes", "-", given=f"11002000 {events}".encode())[0], 0)

    def test_words_of_the_command_line_cut_nothing(self):
        status, output, _ = scr(SET_A, "40000001")
        self.assertEqual((status, LOUD in output), (3, False))

    def test_words_beyond_those_that_are_read(self):
        """A set of 4,096 words and 4,096 events, all done. What stands beyond them is not looked at, and the status tells."""
        whole = BIGGEST + BIGGEST[-8:-4]
        status, output, errors = scr("-", given=whole)
        self.assertEqual((status, errors), (3, ""))
        said = "  WORDS ARE LEFT OUT: only the first 8,192 of the 8,193 words handed in are read; those from word 8192 (byte 32768) on"
        self.assertIn(f"\n{said}", output)
        self.assertEqual(scr("--quiet", "-", given=BIGGEST)[0], 0)

    def test_events_of_the_command_line_beyond_those_that_are_read(self):
        status, _, errors = scr("--quiet", "-", "0=0", "7=7", given=BIGGEST)
        self.assertEqual(status, 3)
        self.assertIn("those from word 8192 (event 1 of the command line) on", errors)

    def test_comments_that_end_before_a_line_does(self):
        # An assertion behind what looks like the end of a line is no comment.
        for sign in "\f\x85\u2028\u2029":
            given = text_of_set_a().replace("\nA1000000", f"\n# the rule{sign}A1000000").encode()
            self.assertEqual(scr("--quiet", "-", given=given)[1].splitlines()[0], "PASS 12 24 1", repr(sign))


if __name__ == "__main__":
    unittest.main()
