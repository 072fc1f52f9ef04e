"""--state N: the values of a state, its enabled events and where each leads, and runs from there."""
import os
import unittest

from common import PROBES, ROOT, SET_A, ScrCase, parts, scr, words_of_set_a
from explain.source import from_text
from explain.witness import Witness

SPRING = os.path.join(ROOT, "examples", "carver-spring.hex")
SIS = os.path.join(ROOT, "examples", "sis.hex")


def witness(path):
    with open(path, encoding="utf-8") as opened:
        return Witness(from_text(opened.read()))


class OneState(ScrCase):
    def shown(self, status, lines, *arguments, **more):
        """The explanation, the same with each program that makes the calls."""
        told = {self.printed(status, lines, *arguments, probe=probe, **more) for probe in PROBES}
        self.assertEqual(len(told), 1)
        return told.pop()

    def test_values_and_enabled_events(self):
        told = self.shown(0, ["PASS 12 24 1"], "--state", "7", SET_A)
        self.assertIn("State 7: variable value 0 Guard 1 1 Start 1 2 Mode 1 (Cut) 3 Spindle 1 by its condition table", told)
        self.assertIn("Enabled events, and where each leads: variable 0 Guard to 0 (B0000000): state 10; Mode from Cut to Hold, Spindle", told)
        self.assertIn("variable 1 Start to 0 (B0100000): state 5; nothing else changes", told)
        self.assertIn("It starts in state 0:", told)
        self.assertIn("The events of the file, 3, are for a run from the initial state and are left out.", told)
        self.assertNotIn("event 0", told)

    def test_every_enabled_event_of_a_bigger_set(self):
        own = witness(SIS)
        for state in (0, 604, 2814, 4823):
            told = self.shown(0, ["PASS 4824 974448 3"], f"--state={state}", SIS)
            values = own.states().values(state)
            for variable, each in enumerate(own.reading.variables):
                for value in range(each.size if each.sort == 1 else 0):
                    said = f"{own.input(variable, value)}: state "
                    self.assertEqual(said in told, value != values[variable])
                    if value != values[variable]:
                        after = own.states().after(values, (variable, value))
                        led = int(told.split(said)[1].split(";")[0])
                        self.assertEqual(own.states().values(led), after)

    def test_a_run_from_there(self):
        told = self.shown(0, ["PASS 12 24 1", "0 0 0 10", "1 0 1 3"], SET_A, "--state", "7", "Guard=0", "Guard=1")
        self.assertIn("event 0: Guard from 1 to 0; then Mode from Cut to Hold, Spindle from 1 to 0; state 10", told)
        self.assertIn("event 1: Guard from 0 to 1; then Mode from Hold to Idle; state 3", told)

    def test_a_run_that_stops(self):
        told = self.shown(3, ["PASS 12 24 1", "0 0 0 10", "REFUSE 16 1"], SET_A, "--state", "7", "0=0", "0=0")
        self.assertIn("Event 1 of the list is not done: variable 0 Guard has the value 0 already.", told)
        self.assertIn("It comes in state 10:", told)
        self.shown(3, ["PASS 12 24 1", "REFUSE 16 0"], SET_A, "--state", "7", "0=1")

    def test_no_such_state(self):
        for events in ([], ["0=0"]):
            told = self.shown(3, ["PASS 12 24 1", "REFUSE 15 12"], SET_A, "--state", "12", *events)
            self.assertIn("There is no state 12: the typed states are 0 to 11.", told)

    def test_a_set_that_is_refused(self):
        told = self.shown(1, ["REFUSE 12 882 0 1 6 7 8"], SPRING, "--state", "882", "Guard=shut")
        self.assertIn("State 882: variable value 0 Guard 0 (open)", told)
        said = "variable 0 Guard to 1 (shut) (B0000001): no next state. Event overlap (REFUSE 12 882 0 1 6 7 8)."
        self.assertIn(said, told)
        self.assertIn("variable 2 Resume to 0 (released) (B0200000): state 864; nothing else changes", told)

    def test_a_state_without_all_its_values(self):
        gap = os.path.join(ROOT, "examples", "pump-gap.hex")
        told = self.shown(1, ["REFUSE 10 0 8 3"], gap, "--state", "8", "1=1")
        self.assertIn("What is asked of state 8 is refused too. 10: gap. No row of variable 3 Valve's table holds in state 8", told)
        self.assertIn("The events handed in, 1, are not run: the set is refused.", told)
        self.assertIn("There is no state 99: the typed states are 0 to 15.", self.shown(1, ["REFUSE 10 0 8 3"], gap, "--state", "99"))
        self.assertIn("state 1; ", self.shown(1, ["REFUSE 10 0 8 3"], gap, "--state", "0"))

    def test_a_set_without_states(self):
        out_of_order = b"13002000 13002000 2301FF00 3FF00000 90000001 2300FF00 3FF00000 90000001"
        for given, refusal in {b"11002000 12002000": "REFUSE 6 1", out_of_order: "REFUSE 21 5"}.items():
            self.assertNotIn("State 0", self.shown(1, [refusal], "-", "--state", "0", given=given))

    def test_a_set_without_inputs(self):
        told = self.shown(0, ["PASS 1 0 1"], "-", "--state", "0", given=b"A1000000 90000001")
        self.assertIn("No event is enabled here: the set has no input.", told)

    def test_quiet(self):
        status, output, errors = scr("--quiet", "--state", "7", SET_A, "0=0")
        self.assertEqual((status, output, errors), (0, "PASS 12 24 1\n0 0 0 10\n", ""))

    def test_more_events_than_a_run_takes(self):
        events = ["0=0", "0=1"] * 2049
        self.assertEqual(parts(scr("--state", "7", SET_A, *events)[1])[0], ["PASS 12 24 1", "REFUSE 17 4097"])

    def test_a_broken_last_word_goes_with_the_events(self):
        given = words_of_set_a(30) + b"\1"
        status, output, _ = scr("--state", "0", "-", given=given)
        self.assertEqual((status, parts(output)[0]), (1, ["PASS 12 24 1"]))
        self.assertIn("THE SET IS CUT SHORT", output)

    def test_bad_usage(self):
        for given in ("x", "-1", "4294967296", ""):
            self.no_verdict("--state takes the number of a state", SET_A, "--state", given)
        self.no_verdict("--state takes the number of a state", SET_A, "--state")
        self.no_verdict("--state can be given once", SET_A, "--state", "0", "--state=1")
        self.no_verdict("--bytes and --state don't go together", SET_A, "--state", "0", "--bytes")

    def test_a_program_that_gives_no_answer(self):
        for probe in ("true", "echo HELLO", "echo STATE x"):
            self.no_verdict("gave no", SET_A, "--state", "0", probe=probe)


if __name__ == "__main__":
    unittest.main()
