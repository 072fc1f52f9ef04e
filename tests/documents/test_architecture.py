"""docs/ARCHITECTURE.md has a line for every crate, in an order that fits crates.txt, and a line for every module; README.md's picture has every
crate; links of the documents lead somewhere.

A module is a file of src/, specs/ or proofs/ of a crate, in subfolders too. The proofs of single functions (Answers.antt and Invariants.antt in a folder of the
function's) and the roots (Lib.antt) have no line. A line stands in the section of its crate and names the module by its path there: `src/sweep.rt` or, without .antt,
`proofs/Laws`."""
import glob
import os
import re
import unittest

ROOT = os.path.dirname(os.path.dirname(os.path.dirname(os.path.abspath(__file__))))
ARCHITECTURE = "docs/ARCHITECTURE.md"
DOCUMENTS = ("README.md", "docs/*.md", "docs/*/*.md", "examples/*.md", "tests/*/*.md")
FOLDERS = {"src": ".rt", "specs": ".antt", "proofs": ".antt"}
NO_MODULE = re.compile(r"/Lib\.antt$|/proofs/.+/(Answers|Invariants)\.antt$")


def text_of(name):
    with open(os.path.join(ROOT, name), encoding="utf-8") as opened:
        return opened.read()


def files(pattern):
    return sorted(os.path.relpath(path, ROOT) for path in glob.glob(os.path.join(ROOT, pattern), recursive=True))


def dependencies():
    """What crates.txt says: each crate, and what it depends on."""
    lines = [line.split("#")[0].partition(":") for line in text_of("crates.txt").splitlines()]
    return {name.split()[0]: needed.split() for name, colon, needed in lines if colon}


def crates_told():
    """The crates of each document, those first that depend on nothing: of a table from the top, of a picture from the bottom."""
    picture = text_of("README.md").split("## What is here", 1)[1].split("\n\n")[2]
    drawn = [name for line in picture.splitlines() for name in re.split(r"  +", line.strip())[:-1]]
    return {ARCHITECTURE: re.findall(r"^\| \[`(\w+)`\]", text_of(ARCHITECTURE), re.MULTILINE), "README.md": drawn[::-1]}


def modules():
    found = [name for folder, end in FOLDERS.items() for name in files(f"crates/*/{folder}/**/*{end}")]
    return {name for name in found if not NO_MODULE.search(name)}


def modules_told():
    """The file that each line of the tables names, and where the line stands."""
    told, section = [], ""
    for number, line in enumerate(text_of(ARCHITECTURE).splitlines(), 1):
        if line.startswith("#"):
            section = line.strip("#` ")
        row = re.match(r"\| `((src|specs|proofs)/[^`]+)` \| \S", line)
        if row:
            end = "" if row.group(2) == "src" else ".antt"
            told.append((f"crates/{section}/{row.group(1)}{end}", f"{ARCHITECTURE}:{number}"))
    return told


def anchors(text):
    """The names by which links reach the headings of a document."""
    headings = re.findall(r"^#+ (.*)", text, re.MULTILINE)
    return {re.sub(r"[^\w -]", "", heading.lower()).replace(" ", "-") for heading in headings}


class Architecture(unittest.TestCase):
    def none(self, faults):
        if faults:
            self.fail("\n" + "\n".join(faults))

    def test_every_module_has_a_line(self):
        told = {name for name, _ in modules_told()}
        self.none([f"{ARCHITECTURE} has no line for {name}" for name in sorted(modules() - told)])

    def test_every_line_has_its_module(self):
        there = modules()
        self.none([f"{place}: {name} is not there" for name, place in modules_told() if name not in there])

    def test_no_module_has_two_lines(self):
        told = modules_told()
        self.none([f"{place}: {name} again" for at, (name, place) in enumerate(told) if name in dict(told[:at])])

    def test_every_crate_is_told(self):
        there = dependencies()
        for document, told in crates_told().items():
            self.none([f"{document} has nothing of crate {name}" for name in there if name not in told])
            self.none([f"{document}: crate {name} is not in crates.txt" for name in told if name not in there])

    def test_crates_stand_in_their_order(self):
        there = dependencies()
        for document, told in crates_told().items():
            after = [(name, needed) for at, name in enumerate(told) for needed in there.get(name, []) if needed in told[at:]]
            self.none([f"{document}: {name} depends on {needed}, so they are in the wrong order" for name, needed in after])


class Links(unittest.TestCase):
    def test_every_link_within_the_repository_leads_somewhere(self):
        documents = [name for pattern in DOCUMENTS for name in files(pattern)]
        self.assertIn("README.md", documents)
        for name in documents:
            for link in re.findall(r"\]\(([^)\s]+)\)", text_of(name)):
                if "://" not in link:
                    with self.subTest(document=name, link=link):
                        self.leads(name, *link.partition("#")[::2])

    def leads(self, document, path, anchor):
        target = os.path.normpath(os.path.join(os.path.dirname(document), path)) if path else document
        self.assertTrue(os.path.exists(os.path.join(ROOT, target)), f"{target} is not there")
        if anchor:
            self.assertIn(anchor, anchors(text_of(target)))


if __name__ == "__main__":
    unittest.main()
