"""Over the oracle's random inputs: every verdict has an explanation, whose own reading of the words finds the witness shown and the same
steps."""
import collections
import glob
import os
import subprocess
import tempfile
import unittest

from common import ORACLE
from explain.command import explanation
from explain.program import Verdict
from explain.refusals import CAUSES
from explain.source import from_bytes
from explain.witness import Witness

SEED, COUNT = "1", "1500"


class Generated(unittest.TestCase):
    def compare_steps(self, source, verdict):
        """The values after each event done are those that the explanation works out, as it does for 12 and 14."""
        states = Witness(source).states() if verdict.done else None
        before = states.initial() if verdict.done else None
        for _, variable, value, after in verdict.done:
            self.assertEqual(states.after(states.values(before), (variable, value)), states.values(after))
            before = after

    def test_each_verdict_is_explained(self):
        refusals = collections.Counter()
        with tempfile.TemporaryDirectory() as folder:
            subprocess.run([ORACLE, "generate", SEED, COUNT, folder], check=True)
            for path in glob.glob(os.path.join(folder, "*.program")):
                with open(path, "rb") as given, open(path + ".out", encoding="ascii") as printed:
                    source, verdict = from_bytes(given.read()), Verdict(printed.read().splitlines())
                told = explanation(source, verdict)
                with self.subTest(input=os.path.basename(path)):
                    self.assertFalse(any("own reading" in line for line in told), told)
                    self.assertTrue(verdict.fits(len(source.events())))
                    self.compare_steps(source, verdict)
                refusals[verdict.refused[0] if verdict.refused else "none"] += 1
        # 15 can't come: a run starts in the initial state.
        self.assertEqual([number for number in CAUSES if not refusals[number]], [15], refusals)


if __name__ == "__main__":
    unittest.main()
