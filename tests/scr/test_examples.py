"""Every file of examples/ gives what its lines "# expect: ..." say, and examples/README.md tells the same verdict. The documents show what
./scr prints, and docs/FORMAT.md has the words of its example."""
import glob
import os
import re
import unittest

from common import PROGRAMS, ROOT, parts, scr

EXAMPLES = os.path.join(ROOT, "examples")


def text_of(name):
    with open(os.path.join(ROOT, name), encoding="utf-8") as opened:
        return opened.read()


def expected(text):
    return [line.split(":", 1)[1].strip() for line in text.splitlines() if line.startswith("# expect:")]


class Examples(unittest.TestCase):
    def test_each_gives_what_it_says(self):
        files = sorted(glob.glob(os.path.join(EXAMPLES, "*.hex")))
        self.assertTrue(files)
        readme = text_of(os.path.join("examples", "README.md"))
        for path in files:
            name = os.path.basename(path)
            lines = expected(text_of(path))
            self.assertTrue(lines, name)
            self.assertIn(f"| `{name}` | `{lines[0]}` |", readme)
            for program in PROGRAMS:
                with self.subTest(name=name, program=program):
                    status, output, errors = scr(path, program=program)
                    refused = lines[-1].startswith("REFUSE")
                    self.assertEqual((status, parts(output)[0], errors), (int(refused), lines, ""))
                    self.assertNotIn("own reading", output)

    def test_documents_quote_what_is_printed(self):
        for document in ("README.md", os.path.join("docs", "FORMAT.md")):
            blocks = text_of(document).split("    $ ./scr ")[1:]
            self.assertTrue(blocks, document)
            for block in blocks:
                command, *quoted = block.split("\n\n", 1)[0].split("\n    ")
                with self.subTest(document=document, command=command):
                    *options, example = command.split()
                    printed = scr(*options, os.path.join(ROOT, example))[1].splitlines()
                    self.assertTrue(quoted)
                    self.assertEqual([line for line in quoted if line.strip() != "..." and line not in printed], [])

    def test_the_format_tells_every_word_of_the_pump(self):
        told = re.findall(r"^\| (\d+) \| `([0-9A-F]{8})` \|", text_of(os.path.join("docs", "FORMAT.md")), re.MULTILINE)
        words = [word for line in text_of(os.path.join("examples", "pump.hex")).splitlines() for word in line.split("#")[0].split()]
        self.assertEqual(told, [(str(index), word) for index, word in enumerate(words) if not word.startswith("B")])


if __name__ == "__main__":
    unittest.main()
