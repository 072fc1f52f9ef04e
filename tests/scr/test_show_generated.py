"""What ./scr show makes of the oracle's random inputs, whole, altered and of random bytes."""
import collections
import glob
import os
import random
import re
import subprocess
import tempfile
import unittest

from common import ORACLE
from explain import words as w
from explain.program import Verdict
from explain.show import is_whole, shown
from explain.source import from_bytes
from test_show import counted, example

# The refusals after which not all words are read.
OF_READING = (*range(1, 6), 21)
SHOWN_KINDS = {w.VARIABLE: "variables", w.TABLE: "tables", w.ROW: "rows", w.ASSERTION: "assertions"}


def in_words(word):
    """A test as it is shown where nothing has a name."""
    return f"v{w.field(word, 27, 20)}{'<=' if w.field(word, 19, 16) else '='}{w.field(word, 7, 0)}"


class AsTheOracleReads(unittest.TestCase):
    """Each word before the one that the oracle refuses is shown, and none after it."""

    def agree(self, data, verdict):
        source = from_bytes(data)
        number, at = (verdict.refused[0], verdict.refused[-1]) if not verdict.passed else (None, None)
        refused = number in OF_READING
        lines = shown(source)
        self.assertEqual(is_whole(source), not refused)
        words, of_set = source.handed(), len(source.set())
        self.assertEqual(f"Input events: {len(words) - of_set:,}" in lines, len(words) > of_set)
        if number == 1:
            self.assertIn(f"The set has {of_set} words; a set has 1 to 4,096.", lines)
            return
        end = at if refused else of_set
        kinds = collections.Counter(SHOWN_KINDS.get(w.kind(word)) for word in words[:end])
        self.assertEqual(counted(lines), {what: kinds[what] for what in SHOWN_KINDS.values()})
        tests = [in_words(word) for word in words[:end] if w.kind(word) == w.TEST]
        self.assertEqual(re.findall(r"v\d+(?:=|<=)\d+", "\n".join(lines)), tests)
        stops = [line for line in lines if re.match(rf"  (word {end} \(|The set ends after {end} words)", line)]
        self.assertEqual(len(stops), refused)

    def judged(self, data):
        printed = subprocess.run([ORACLE, "program"], input=data, stdout=subprocess.PIPE, check=False).stdout
        return Verdict(printed.decode("ascii").splitlines())

    def generated(self, seed, count):
        with tempfile.TemporaryDirectory() as folder:
            subprocess.run([ORACLE, "generate", seed, count, folder], check=True)
            for path in sorted(glob.glob(os.path.join(folder, "*.program"))):
                with open(path, "rb") as given, open(path + ".out", encoding="ascii") as printed:
                    yield os.path.basename(path), given.read(), Verdict(printed.read().splitlines())

    def test_generated_sets(self):
        refusals = collections.Counter()
        for name, data, verdict in self.generated("2", "1000"):
            with self.subTest(input=name):
                self.agree(data, verdict)
            refusals["none" if verdict.passed else verdict.refused[0]] += 1
        self.assertEqual([number for number in [*range(1, 15), 21] if not refusals[number]], [], refusals)

    def test_one_bit_altered(self):
        random.seed(2)
        for name, data, _ in self.generated("3", "300"):
            if data:
                altered = bytearray(data)
                altered[random.randrange(len(data))] ^= 1 << random.randrange(8)
                with self.subTest(input=name, altered=altered.hex()):
                    self.agree(bytes(altered), self.judged(altered))

    def test_random_bytes(self):
        random.seed(3)
        for length in range(200):
            data = random.randbytes(length)
            # Every other input starts like a set, so that more of it is read.
            data = example("set-a.hex").set_bytes()[: random.randrange(117)] + data if length % 2 else data
            with self.subTest(data=data.hex()):
                self.agree(data, self.judged(data))


if __name__ == "__main__":
    unittest.main()
