"""The tables as people read them: whole sets to the letter, variables, tables and assertions one by one, sets that don't read to their end."""
import glob
import os
import re
import unittest

from common import ROOT, ScrCase, hexadecimal, scr
from explain import words as w
from explain.show import is_whole, shown
from explain.source import as_bytes, from_bytes, from_data, from_text
from words import assertion, at_most, both, either, equals, event, falls, no, rises, row, table, variable
from words import CONDITION_TABLE, CONTROLLED, EVENT_TABLE, FALSE, MODE_CLASS, MODE_TABLE, MONITORED, NONE, TERM, TRUE

PUMP = """\
Variables
  number  name    class       values                          first value  place
  0       Level   monitored   0 empty, 1 low, 2 good, 3 full  good         line 9
  1       Switch  monitored   0 off, 1 on                     off          line 10
  2       Mode    mode class  0 Rest, 1 Fill                  Rest         line 11
  3       Valve   controlled  0 shut, 1 open                  shut         line 12

Mode table of Mode (variable 2, line 14)
  row  mode  event                            new mode  place
  0    Rest  @T(Level<=low) WHEN Switch=on    Fill      line 15
  1    Fill  @T(Level=full) or @F(Switch=on)  Rest      line 16

Condition table of Valve by Mode (variable 3, line 18)
  row  mode  condition        value  place
  0    Rest  true             shut   line 19
  1    Fill  Level<=good      open   line 20
  2    Fill  not Level<=good  shut   line 21

Assertions
  assertion 0 "Mode=Fill only with Switch=on" (line 23):
    not Mode=Fill or Switch=on

Input events: 3
  event 0: Switch to on (line 25)
  event 1: Level to low (line 26)
  event 2: Switch to off (line 27)
"""

SET_A = """\
Variables
  number  name  class       values  first value  place
  0       v0    monitored   0, 1    0            byte 0
  1       v1    monitored   0, 1    0            byte 4
  2       v2    mode class  0 .. 2  0            byte 8
  3       v3    controlled  0, 1    0            byte 12

Mode table of v2 (variable 2, byte 16)
  row  mode  event               new mode  place
  0    0     @T(v1=1) WHEN v0=1  1         byte 20
  1    1     @F(v0=1)            2         byte 36
  2    2     @T(v0=1)            0         byte 52

Condition table of v3 by v2 (variable 3, byte 68)
  row  mode  condition  value  place
  0    1     true       1      byte 72
  1    0     true       0      byte 80
  2    2     true       0      byte 88

Assertions
  assertion 0 (byte 96):
    not v3=1 or v0=1

Input events: 3
  event 0: v0 to 1 (byte 116)
  event 1: v1 to 1 (byte 120)
  event 2: v0 to 0 (byte 124)
"""

OTHER_ORDER = "set-a-other-order.hex"
STOPS_AT_OTHER_ORDER = """\
Reading stops here:
  word 11 (line 16): 21020200, table: type 1 mode, of variable 2 Mode, reads the modes of variable 2 Mode
  It is refused after row 2 of the table of variable 3 Spindle: variable 2 is lower than variable 3 of the table before.
  The table before: word 4 (line 11): 23030200, table: type 3 condition, of variable 3 Spindle, reads the modes of variable 2 Mode.
  Tables are to stand in rising number of their variables. Move the table of variable 2 Mode, its rows with it, to before the table of \
variable 3 Spindle (word 4, line 11).
"""

CARVER = [
    "  1       Scan     monitored   0 .. 8                          0            line 12",
    "  7    Hold   @T(Guard=shut) WHEN ScanIs=behind                                     Hold      line 34",
    "  8    Hold   @T(Guard=shut) WHEN Resume=held and Stop=released                     Cut       line 36",
    "Condition table of ScanIs (variable 7, line 38)",
    "  row  condition    value   place",
    "  1    not Scan<=1  ahead   line 40",
    "Event table of Lamp (variable 10, line 57)",
    "  row  event          value  place",
    "  1    @F(Mode=Hold)  dark   line 59",
    '  assertion 4 "the feed moves only with Guard=shut and Spindle=full" (line 70):',
    "    not not Feed=stopped or (Guard=shut and Spindle=full)",
]

CRUISE = [
    "  8    Override  (@T(Lever=resume) WHEN IgnOn=true and EngRunning=true and not Brake=true)    Cruise    line 54",
    "                 or (@T(Lever=const) WHEN IgnOn=true and EngRunning=true and not Brake=true)",
    "  2    Cruise    ((Speed=2 and DesiredSpeed<=0) or (Speed=3 and DesiredSpeed<=1)             decel     line 94",
    "                   or (Speed=4 and DesiredSpeed<=2) or (Speed=5 and DesiredSpeed<=3))",
    "                 and not Dur=2",
    '  assertion 9 "A8: Throttle=accel => DesiredSpeed > Speed or Dur > kStartIncr" (line 120):',
    "    not Throttle=accel or (DesiredSpeed=1 and Speed<=0) or (DesiredSpeed=2 and Speed<=1)",
    "    or (DesiredSpeed=3 and Speed<=2) or (DesiredSpeed=4 and Speed<=3)",
    "    or (DesiredSpeed=5 and Speed<=4) or Dur=2",
]


def example(name):
    with open(os.path.join(ROOT, "examples", name), "rb") as opened:
        return from_data(opened.read())


def of(words, names=""):
    """The lines for a set, all words of which stand in the line after those of the names."""
    return shown(from_text(names + hexadecimal(words)))


def cells(line):
    return re.split("  +", line.strip())


def parts(lines):
    """The lines of each part, by its heading."""
    return {part.split("\n")[0]: part.split("\n")[1:] for part in "\n".join(lines).split("\n\n")}


def rows_of(lines):
    """The cells of each row, with the heading of its table."""
    return [
        (heading, *cells(line)) for heading, part in parts(lines).items() if " table of " in heading for line in part if re.match(r"  \d", line)
    ]


def first_values(lines):
    """The first value of each variable."""
    return [cells(line)[4] for line in parts(lines)["Variables"] if re.match(r"  \d", line)]


def counted(lines):
    """How many variables, tables, rows and assertions are shown."""
    said = parts(lines)
    return {
        "variables": sum(bool(re.match(r"  \d", line)) for line in said.get("Variables", [])),
        "tables": sum(" table of " in heading for heading in said),
        "rows": len(rows_of(lines)),
        "assertions": sum(line.startswith("  assertion ") for line in said.get("Assertions", [])),
    }


class Whole(unittest.TestCase):
    def test_the_pump_to_the_letter(self):
        self.assertEqual(shown(example("pump.hex")), PUMP.splitlines())

    def test_set_a_without_names_to_the_letter(self):
        self.assertEqual(shown(from_bytes(example("set-a.hex").bytes())), SET_A.splitlines())

    def test_the_carver_that_check_refuses(self):
        lines = shown(example("carver-spring.hex"))
        self.assertEqual([line for line in CARVER if line not in lines], [])
        self.assertEqual(counted(lines), {"variables": 11, "tables": 5, "rows": 24, "assertions": 6})

    def test_long_formulas_go_on_below_their_column(self):
        text = "\n".join(shown(example("ccs.hex")))
        for block in (CRUISE[:2], CRUISE[2:5], CRUISE[5:]):
            self.assertIn("\n".join(block) + "\n", text)

    def test_every_example_that_reads_is_whole(self):
        names = [os.path.basename(path) for path in glob.glob(os.path.join(ROOT, "examples", "*.hex"))]
        self.assertIn("carver-spring.hex", names)
        self.assertIn(OTHER_ORDER, names)
        for name in names:
            source, reads = example(name), name != OTHER_ORDER
            with self.subTest(name=name):
                self.assertEqual(is_whole(source), reads)
                stops = [line for line in shown(source) if "..." in line or "Reading stops" in line]
                self.assertEqual(stops, [] if reads else ["Reading stops here:"])


class Variables(unittest.TestCase):
    def values(self, size, names):
        return cells(of([variable(MONITORED, size)], f"# var 0 V: {names}\n")[2])[3]

    def test_values_by_name_and_number(self):
        self.assertEqual(self.values(2, "0 open, 1 shut"), "0 open, 1 shut")
        self.assertEqual(self.values(2, "1 shut"), "0, 1 shut")
        self.assertEqual(self.values(3, "0 low, 2 high"), "0 low, 1, 2 high")
        self.assertEqual(self.values(9, ""), "0 .. 8")
        self.assertEqual(self.values(256, "0 low, 7 warm, 255 high"), "0 low, 1 .. 6, 7 warm, 8 .. 254, 255 high")

    def test_many_values_go_on_below_their_column(self):
        names = [f"value{number}" for number in range(30)]
        said = ", ".join(f"{number} {name}" for number, name in enumerate(names))
        _, heads, *lines, last = of([variable(MONITORED, 30), variable(MONITORED, 2)], f"# var 0 V: {said}\n")
        start, end = heads.index("values"), heads.index("first value")
        self.assertEqual(" ".join(line[start:end].strip() for line in lines), said)
        self.assertLess(max(map(len, lines)), 110)
        self.assertEqual(last[start:end].strip(), "0, 1")

    def set_of(self, rows, size=2, initial=0, sort=CONDITION_TABLE):
        """An input that is 1 first and a term with these rows."""
        return [variable(MONITORED, 2, 1), variable(TERM, size, initial), table(sort, 1), *sum(rows, [])]

    def test_first_values(self):
        tells = [row(NONE, 2, equals(0, 1)), row(NONE, 0, no(equals(0, 1)))]
        names = "# var 1 Term: 1 one, 2 two\n"
        for words, said in (
            (self.set_of(tells, 3), "two"),
            (self.set_of(tells, 3, 1), "two (its word says 1)"),
            (self.set_of([row(NONE, 1, rises(equals(0, 1)))], 3, 2, EVENT_TABLE), "two"),
            (self.set_of([row(NONE, 1, equals(0, 0))]), "by its table"),
            (self.set_of([row(NONE, 1, TRUE), row(NONE, 0, TRUE)]), "by its table"),
            (self.set_of([row(NONE, 1, equals(1, 1))]), "by its table"),
            ([variable(MONITORED, 2, 1), variable(TERM, 2, 1)], "one"),
            ([variable(MONITORED, 2, 1), variable(TERM, 2, 1), table(CONDITION_TABLE, 1)], "by its table (its word says 1)"),
            ([variable(MONITORED, 2, 1), variable(TERM, 2, 1), 0x20000000], "one or by its table"),
            ([variable(MONITORED, 2, 1), variable(MODE_CLASS, 2, 1), 0x20000000], "one"),
        ):
            with self.subTest(words=hexadecimal(words)):
                self.assertEqual(first_values(of(words, names)), ["1", said])

    def test_no_first_value_is_worked_out_without_an_order(self):
        cyclic = [variable(TERM, 2), variable(TERM, 2), table(CONDITION_TABLE, 0), *row(NONE, 1, TRUE)]
        cyclic += [table(CONDITION_TABLE, 1), *row(NONE, 1, equals(1, 0))]
        self.assertEqual(first_values(of(cyclic)), ["by its table", "by its table"])


class Tables(unittest.TestCase):
    NAMES = "# var 0 Key: 0 up, 1 down\n# var 1 Mode: 0 Idle, 1 Cut\n# var 2 Lamp: 1 lit\n"
    BEFORE = [variable(MONITORED, 2), variable(MODE_CLASS, 2), variable(CONTROLLED, 2)]

    def formula(self, formula, sort=MODE_TABLE, mode=NONE):
        """The formula of a row as it is shown."""
        words = [*self.BEFORE, table(sort, 1 if sort == MODE_TABLE else 2, 1), *row(mode, 1, formula)]
        return rows_of(of(words, self.NAMES))[0][3]

    def test_when_is_left_out_where_it_says_nothing(self):
        down, cut = equals(0, 1), equals(1, 1)
        for formula, said in (
            (rises(down), "@T(Key=down)"),
            (rises(down, cut), "@T(Key=down) WHEN Mode=Cut"),
            (rises(down, FALSE), "@T(Key=down) WHEN false"),
            (falls(down, both(TRUE, cut)), "@F(Key=down) WHEN true and Mode=Cut"),
            (either(rises(down), falls(cut)), "@T(Key=down) or @F(Mode=Cut)"),
            (either(rises(down, cut), falls(cut)), "(@T(Key=down) WHEN Mode=Cut) or @F(Mode=Cut)"),
            (FALSE, "false"),
        ):
            self.assertEqual(self.formula(formula), said)

    def test_conditions(self):
        down, low = equals(0, 1), at_most(1, 0)
        for condition, said in (
            (TRUE, "true"),
            (no(either(down, low)), "not (Key=down or Mode<=Idle)"),
            (both(either(down, low), both(low, TRUE)), "(Key=down or Mode<=Idle) and Mode<=Idle and true"),
        ):
            self.assertEqual(self.formula(condition, CONDITION_TABLE), said)

    def test_modes_and_headings(self):
        words = [*self.BEFORE, table(EVENT_TABLE, 2, 1), *row(NONE, 1, FALSE), *row(1, 0, FALSE)]
        self.assertEqual(of(words, self.NAMES)[6:], [
            "Event table of Lamp by Mode (variable 2, line 4)",
            "  row  mode        event  value  place",
            "  0    every mode  false  lit    line 4",
            "  1    Cut         false  0      line 4",
        ])

    def test_assertions_by_name(self):
        source = from_text(self.NAMES + hexadecimal(self.BEFORE + assertion(equals(0, 1)) + assertion(no(equals(0, 1)))))
        source.names.assertions = {1: "Kept"}
        self.assertEqual(shown(source)[6:], [
            "Assertions",
            "  assertion 0 (line 4):",
            "    Key=down",
            '  assertion 1 "Kept" (line 4):',
            "    not Key=down",
        ])


class Command(ScrCase):
    def test_a_whole_set_is_printed_and_nothing_run(self):
        path = os.path.join(ROOT, "examples", "pump.hex")
        self.assertEqual(scr("show", path, program="false"), (0, PUMP, ""))

    def test_a_set_that_does_not_read_is_no_success(self):
        status, output, errors = scr("show", "-", given=b"11002000 12001000")
        self.assertEqual((status, errors), (2, "scr: the set is not shown whole: it is cut short, or doesn't read to its end\n"))
        self.assertIn("Reading stops here:\n  word 1 (line 1): 12001000", output)

    def test_a_set_cut_short(self):
        status, output, _ = scr("show", "-", given=b"11002000 B1000000 90000001")
        self.assertEqual(status, 2)
        self.assertTrue(output.startswith("  THE SET IS CUT SHORT: word 1 (line 1), B1000000"), output)


class Partly(unittest.TestCase):
    def test_no_words(self):
        self.assertEqual(of([]), ["The set has 0 words; a set has 1 to 4,096."])
        self.assertFalse(is_whole(from_text("")))

    def test_only_events(self):
        lines = of([event(0, 1)])
        self.assertEqual(lines[0], "The set has 0 words; a set has 1 to 4,096.")
        self.assertEqual(lines[-2:], ["Input events: 1", "  event 0: v0 to 1 (line 1)"])

    def test_words_that_are_no_event(self):
        source = from_bytes(as_bytes([variable(MONITORED, 2), event(0, 1), 0x40000001, 0xB0000101]) + b"x")
        self.assertEqual(shown(source)[4:], [
            "Input events: 4",
            "  event 0: v0 to 1 (byte 4)",
            "  event 1: 40000001, test: variable 0 equals 1 (byte 8)",
            "  event 2: B0000101, input event: variable 0 to 1, spare bits 00000100 (byte 12)",
            "  event 3: 00000000, kind 0, which no word has (the broken last word)",
        ])
        self.assertTrue(is_whole(source))

    def test_more_words_than_are_read(self):
        lines = of([variable(MONITORED, 2)] + [event(0, 1)] * 9000)
        self.assertEqual(lines[4], "Input events: 8,191")
        self.assertEqual(lines[-1], "  809 words more, which the program does not look at")
        self.assertEqual(len(lines), 5 + 8191 + 1)

    def test_a_set_that_is_too_long(self):
        source = from_text(hexadecimal([variable(MONITORED, 2)] + (assertion(no(no(equals(0, 1)))) * 2000)))
        lines = shown(source)
        self.assertEqual(counted(lines)["assertions"], 32)
        self.assertIn("The set has 8001 words; a set has 1 to 4,096.", lines)
        self.assertEqual(lines[-1], "  It is refused after assertion 31: one over the limit of 32 assertions.")
        self.assertFalse(is_whole(source))

    def test_tables_in_another_order(self):
        lines = shown(example(OTHER_ORDER))
        self.assertEqual(counted(lines), {"variables": 4, "tables": 1, "rows": 3, "assertions": 0})
        self.assertEqual(lines[-5:], STOPS_AT_OTHER_ORDER.splitlines())

    def test_a_formula_as_far_as_it_reads(self):
        words = [variable(MONITORED, 2), variable(TERM, 2), table(EVENT_TABLE, 1), *row(NONE, 1, rises(equals(0, 1), no(equals(0, 1))))]
        said = [rows_of(of(words[:end]))[0][2] for end in range(4, len(words) + 1)]
        self.assertEqual(said, ["...", "@T(...) WHEN ...", "@T(v0=1) WHEN ...", "@T(v0=1) WHEN not ...", "@T(v0=1) WHEN not v0=1"])

    def test_set_a_cut_at_every_word(self):
        words = from_bytes(example("set-a.hex").set_bytes()).words
        whole = rows_of(shown(from_bytes(as_bytes(words))))
        starts = [index for index, word in enumerate(words) if w.kind(word) == w.ROW]
        marks = [index for index, word in enumerate(words) if w.kind(word) in (w.TABLE, w.ROW, w.ASSERTION)] + [len(words)]
        ends = [min(mark for mark in marks if mark > start) for start in starts]
        self.assertEqual(len(whole), len(starts))
        for cut in range(len(words)):
            source = from_bytes(as_bytes(words[:cut]))
            lines = shown(source)
            rows, done = rows_of(lines), sum(end <= cut for end in ends)
            with self.subTest(cut=cut):
                self.assertEqual(rows[:done], whole[:done])
                self.assertEqual(len(rows), sum(start < cut for start in starts))
                for begun, like in zip(rows[done:], whole[done:]):
                    # Only the formula, the third cell after the heading, is not as in the whole set.
                    self.assertIn("...", begun[3])
                    self.assertEqual(begun[:3] + begun[4:], like[:3] + like[4:])
                reads = cut in {1, 2, 3, 4, *ends}
                self.assertEqual(f"  The set ends after {cut} words." in lines, not reads and cut > 0)
                self.assertEqual(is_whole(source), reads)


if __name__ == "__main__":
    unittest.main()
