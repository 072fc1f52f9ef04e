"""Names that comments give: each that doesn't fit the words gets a warning with its line, and no wrong label."""
import unittest

from common import ScrCase, scr
from explain.source import from_text

TWO = "11002000 # var 0 Guard: 0 open, 1 shut\n"


class Naming(ScrCase):
    def warned(self, text, *warnings, variables=None, values=None, assertions=None):
        """These warnings, and these names."""
        source = from_text(text)
        self.assertEqual(source.misnamed, list(warnings))
        for expected, names in ((variables, source.names.variables), (values, source.names.values), (assertions, source.names.assertions)):
            if expected is not None:
                self.assertEqual(names, expected)

    def test_names_that_fit(self):
        names = {0: "Guard", 1: "Last"}
        values = {(0, 0): "open", (0, 1): "shut"}
        self.warned(TWO + "11003000 # var 1 Last", variables=names, values=values)
        # On lines of their own, and several words on a line.
        self.warned("# var 1 Last\n# var 0 Guard: 0 open, 1 shut,\n11002000 11003000", variables=names, values=values)
        self.warned("11002000 11003000 # Var 1 Last # a comment on the name", variables={1: "Last"})

    def test_other_comments_are_left_alone(self):
        for comment in ("variable 0", "var", "var x", "the var 0 Guard", "var 0", "assertion 0", "assertions", "expect: PASS"):
            self.warned(f"11002000 # {comment}", variables={}, assertions={})

    def test_the_number_of_another_variable(self):
        warning = "line 2: the comment names variable 0, but variable 1 stands on this line; the name is not taken"
        self.warned(TWO + "11003000 # var 0 Last", warning, variables={0: "Guard"})
        warning = "line 1: the comment names variable 2, but variables 0 to 1 stand on this line; the name is not taken"
        self.warned("11002000 11002000 # var 2 Mode\n11002000", warning, variables={})

    def test_a_variable_that_is_not_there(self):
        warning = "line 1: the comment names variable 1, but there is none: the set has 1; the name is not taken"
        self.warned("# var 1 Last\n11002000", warning, variables={})
        warning = "line 1: the comment names variable 1000000000000, but there is none: the set has 1; the name is not taken"
        self.warned(f"# var {'9' * 5000} Last\n11002000", warning, variables={})

    def test_a_name_used_twice(self):
        warning = "line 2: 'Guard' is the name of variable 0 already, so it is not taken as the name of variable 1"
        self.warned(TWO + "11002000 # var 1 Guard", warning, variables={0: "Guard"})
        warning = "line 1: 'open' is the name of value 0 already, so it is not taken as the name of value 1 of variable 0"
        self.warned("11002000 # var 0 Guard: 0 open, 1 open", warning, values={(0, 0): "open"})

    def test_two_names_for_one_thing(self):
        warning = "line 2: variable 0 is called 'Guard' already, so 'Door' is not taken"
        self.warned(TWO + "# var 0 Door", warning, variables={0: "Guard"})
        warning = "line 1: value 0 of variable 0 is called 'open' already, so 'ajar' is not taken"
        self.warned("11002000 # var 0 Guard: 0 open, 0 ajar", warning, values={(0, 0): "open"})
        self.warned(TWO + TWO.partition(" ")[2], variables={0: "Guard"})

    def test_a_value_that_is_named_otherwise(self):
        for part in ("0=Idle", "Idle", "0", "0:Idle"):
            said = f"{part!r} names no value of variable 0; write a number, a blank and a name, as in '0 Idle'"
            self.warned(f"11002000 # var 0 Mode: {part}, 1 Cut", f"line 1: {said}", values={(0, 1): "Cut"})

    def test_a_value_beyond_the_size(self):
        warning = "line 1: variable 0 has no value 2: its size is 2; the name 'Hold' is not taken"
        self.warned("11002000 # var 0 Mode: 0 Idle, 1 Cut, 2 Hold", warning, values={(0, 0): "Idle", (0, 1): "Cut"})

    def test_names_that_would_be_misread(self):
        self.warned("11002000 # var 0 17", "line 1: '17' is not taken as the name of variable 0: a name is no number", variables={})
        # Value 0 called 1 would be shown as value 1.
        self.warned("11002000 # var 0 On: 0 1", "line 1: '1' is not taken as the name of a value of variable 0: a name is no number", values={})
        said = "'v1' is what variable 1 is called without a name, so it is not taken as another's name"
        self.warned("11002000 # var 0 v1", f"line 1: {said}", variables={})
        self.warned("11002000 # var 0 v0", variables={0: "v0"})
        for name in ("a=b", "a,b", "a;b"):
            said = f"{name!r} is not taken as the name of variable 0: a name has no comma, semicolon, colon or equals sign"
            self.warned(f"11002000 # var 0 {name}", f"line 1: {said}", variables={})

    def test_a_comma_forgotten(self):
        for name in ("Rest 1 Fill", "1 Fill"):
            said = f"{name!r} is not taken as the name of a value of variable 0: it has a number before a word, as if a comma were missing"
            self.warned(f"11002000 # var 0 Mode: 0 {name}", f"line 1: {said}", values={})
        said = "'Rest; 1 Fill' is not taken as the name of a value of variable 0: a name has no comma, semicolon, colon or equals sign"
        self.warned("11002000 # var 0 Mode: 0 Rest; 1 Fill", f"line 1: {said}", values={})
        self.warned("11002000 # var 0 Gear: 0 gear 1, 1 gear 2", values={(0, 0): "gear 1", (0, 1): "gear 2"})

    def test_names_of_several_words(self):
        text = "11002000 # var 0 Guard of the last: 0 wide open, 1 shut\n"
        self.warned(text, variables={0: "Guard of the last"}, values={(0, 0): "wide open", (0, 1): "shut"})
        explanation = self.printed(0, ["PASS 2 2 0", "0 0 1 1"], "-", "Guard of the last=shut", given=text.encode())
        self.assertIn("event 0: Guard of the last from wide open to shut", explanation)

    def test_what_is_shown_without_a_name_can_be_typed(self):
        self.assertIn("v0 from 0 to 1", self.printed(0, ["PASS 2 2 0", "0 0 1 1"], "-", "v0=1", given=b"11002000"))
        self.printed(3, ["PASS 2 2 0", "REFUSE 16 0"], "-", "v9=1", given=b"11002000")

    def test_names_of_assertions(self):
        true = "A1000000 90000001"
        self.warned(f"{true} # assertion 0: always\n{true}", assertions={0: "always"})
        self.warned(f"# assertion 1 always, still: a=b\n{true}\n{true}", assertions={1: "always, still: a=b"})
        warning = "line 2: the comment names assertion 0, but assertion 1 stands on this line; the name is not taken"
        self.warned(f"{true}\n{true} # assertion 0: always", warning, assertions={})
        warning = "line 1: the comment names assertion 2, but there is none: the set has 1; the name is not taken"
        self.warned(f"{true} # assertion 2: always", warning, assertions={})
        refused = scr("-", given=b"11002000\nA1000000 40000001 # assertion 0: shut at first")[1]
        self.assertIn('Assertion 0 "shut at first" is false in the initial state, 0.', refused)

    def test_a_set_that_does_not_read_keeps_its_names(self):
        # Variable 0's size is refused; nothing is known of what stands behind it.
        self.warned("11001000 # var 0 Guard\n11002000 # var 1 Last\n# assertion 3: x", variables={0: "Guard", 1: "Last"}, assertions={})

    def test_warnings_go_to_standard_error_and_alter_no_verdict(self):
        for arguments in (["-"], ["--quiet", "-"], ["--bytes", "-"], ["show", "-"]):
            status, _, errors = scr(*arguments, given=b"11002000 # var 0 Guard: 0=open")
            self.assertEqual((status, errors.count("scr: warning: line 1: '0=open' names no value")), (0, 1))


if __name__ == "__main__":
    unittest.main()
