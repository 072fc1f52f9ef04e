"""The command itself: files, events and options of every form, and that the program's lines come out unchanged."""
import os
import subprocess
import unittest

from common import ORACLE, ROOT, SET_A, File, Folder, ScrCase, environment, scr, words_of_set_a

TEXT = "11002000 # var 0 Guard: 0 open, 1 shut\n"
BYTES = (0x11002000).to_bytes(4, "little")


class Command(ScrCase):

    def test_set_a_as_document_01_prints_it(self):
        explanation = self.printed(0, ["PASS 12 24 1", "0 0 1 1", "1 1 1 7", "2 0 0 10"], SET_A)
        self.assertTrue(explanation.startswith("PASS: this set may be loaded. "), explanation)
        self.assertIn("12 typed states", explanation)
        self.assertIn("24 typed steps; the one assertion is true initially and kept by every step", explanation)
        self.assertIn("A typed state is any choice of a value for each variable without a condition table", explanation)
        self.assertIn("event 1: Start from 0 to 1; then Mode from Idle to Cut, Spindle from 0 to 1; state 7", explanation)
        self.assertIn("event 0: Guard from 0 to 1; then nothing else changes; state 1", explanation)

    def test_the_start_state_is_shown_after_every_pass(self):
        explanation = self.printed(0, ["PASS 12 24 1"], "-", given=words_of_set_a(29))
        self.assertIn("It starts in state 0: variable value 0 0 1 0 2 0 3 0 by its condition table", explanation)

    def test_quiet_is_what_the_program_prints(self):
        given = words_of_set_a(32)
        printed = subprocess.run([ORACLE, "program"], input=given, stdout=subprocess.PIPE, check=True).stdout.decode()
        self.assertEqual(scr("--quiet", SET_A), (0, printed, ""))
        self.assertEqual(scr("--quiet", "-", given=given), (0, printed, ""))

    def test_bytes_of_the_set_for_the_host(self):
        environment = {**os.environ, "SCRCHECK": "false"}
        done = subprocess.run([os.path.join(ROOT, "scr"), "--bytes", SET_A], stdout=subprocess.PIPE, env=environment, check=True)
        self.assertEqual(done.stdout, words_of_set_a(29))

    def test_standard_input(self):
        self.printed(0, ["PASS 2 2 0"], "-", given=TEXT.encode())

    def test_text_is_free_in_blanks_line_ends_case_and_length(self):
        for text in ("11002000\r\n11002000", "\t11002000\n\n  0x11002000#end", "11002000 11002000\f", "\ufeff11002000 11002000"):
            self.printed(0, ["PASS 4 8 0"], "-", given=text.encode())
        self.printed(1, ["REFUSE 2 0"], "-", given=b"00000c00 #kind 0")

    def test_bytes_are_told_by_what_no_text_has(self):
        with File(BYTES) as path:
            explanation = self.printed(0, ["PASS 2 2 0", "0 0 1 1"], path, "0=1")
        self.assertIn("event 0: v0 from 0 to 1", explanation)

    def test_bytes_that_could_be_text(self):
        self.printed(1, ["REFUSE 2 0"], "--binary", "-", given=b"4040")
        explanation = self.printed(1, ["REFUSE 2 0"], "-", given=b"40404040")
        self.assertIn("word 0 (line 1): 40404040", explanation)

    def test_a_broken_last_word(self):
        explanation = self.printed(1, ["REFUSE 2 1"], "-", given=BYTES + b"\1")
        self.assertIn("word 1 (the broken last word): 00000000", explanation)
        self.no_verdict("events can't follow a broken last word", "-", "0=1", given=BYTES + b"\1")

    def test_places_in_bytes(self):
        explanation = self.printed(1, ["REFUSE 2 1"], "-", given=BYTES + bytes(4))
        self.assertIn("word 1 (byte 4): 00000000, kind 0, which no word has", explanation)

    def test_events_by_number_name_and_word(self):
        lines = ["PASS 2 2 0", "0 0 1 1", "1 0 0 0", "2 0 1 1"]
        explanation = self.printed(0, lines, "-", "0=1", "Guard=open", "B0000001", given=TEXT.encode())
        self.assertIn("event 1: Guard from shut to open", explanation)

    def test_events_follow_those_of_the_file(self):
        self.printed(0, ["PASS 2 2 0", "0 0 1 1", "1 0 0 0"], "-", "0=0", given=TEXT.encode() + b"B0000001")

    def test_no_variables(self):
        self.printed(0, ["PASS 1 0 1"], "-", given=b"A1000000 90000001")

    def test_options_before_and_after_the_file(self):
        for arguments in (["--quiet", "-", "0=1"], ["-", "--quiet", "0=1"], ["-", "0=1", "--quiet"], ["--quiet", "--", "-", "0=1"]):
            self.assertEqual(self.printed(0, ["PASS 2 2 0", "0 0 1 1"], *arguments, given=TEXT.encode()), "")

    def test_what_follows_two_hyphens_is_no_option(self):
        for name in ("--quiet", "show", "-"):
            with Folder({name: TEXT.encode()}) as folder:
                given = b"" if name == "-" else None
                done = subprocess.run(
                    [os.path.join(ROOT, "scr"), "--", name], cwd=folder, input=given, capture_output=True, env=environment(), check=False
                )
                # - is standard input after -- too.
                expected = b"REFUSE 1 0\n" if name == "-" else b"PASS 2 2 0\n"
                self.assertTrue(done.stdout.startswith(expected), (name, done))

    def test_version(self):
        for arguments in (["--version"], [SET_A, "--version"]):
            status, output, errors = scr(*arguments, program="false")
            self.assertEqual((status, errors), (0, ""))
            self.assertRegex(output, r"^scr of Kengatipo [0-9]+\.[0-9]+, for sets by document 01 .*\n$")

    def test_bad_usage(self):
        self.no_verdict("usage: ./scr")
        self.no_verdict("unknown option --all", "--all", SET_A)
        self.no_verdict("unknown option --all", SET_A, "--all")
        self.no_verdict("unknown option --quiet=1", SET_A, "--quiet=1")
        self.no_verdict("--bytes takes no events", "--bytes", SET_A, "0=1")
        self.no_verdict("show takes no events", "show", SET_A, "0=1")
        self.no_verdict("--bytes and show don't go together", "--bytes", "show", SET_A)
        self.no_verdict("No such file", os.path.join(ROOT, "no-such-file"))
        self.no_verdict("Is a directory", ROOT)
        self.no_verdict("line 2: 'G' is not a word", "-", given=b"11002000\n00000001 G")
        self.no_verdict("'110020000' is not a word", "-", given=b"110020000")

    def test_bad_events(self):
        for event, said in {
            "Door=1": "no variable is called 'Door'",
            "Guard=ajar": "no value of variable 0 is called 'ajar'",
            "0=256": "at most 255",
            "256=0": "at most 255",
            "x": "neither v=k nor a word",
            "11002000": "the first event must be a word of kind 11",
        }.items():
            self.no_verdict(said, "-", event, given=TEXT.encode())

    def test_help(self):
        status, output, _ = scr("--help", PYTHONOPTIMIZE="2")
        self.assertEqual(status, 0)
        for option in ("show", "--state N", "--quiet", "--bytes", "--version", "Exit status:"):
            self.assertIn(f"\n{option}", output)


if __name__ == "__main__":
    unittest.main()
