"""Runs ./scr on words, with the oracle's program in the place of the proved one or with that one too."""
import os
import subprocess
import sys
import tempfile
import unittest

ROOT = os.path.dirname(os.path.dirname(os.path.dirname(os.path.abspath(__file__))))
ORACLE = os.path.join(ROOT, "tests", "oracle", "target", "release", "oracle")
PROVED = os.path.join(ROOT, "target", "bin", "scrcheck")
PROVED_PROBE = os.path.join(ROOT, "target", "bin", "scrprobe")

if not os.path.exists(ORACLE):
    sys.exit("build the oracle first: (cd tests/oracle && cargo build --offline --release)")

# The proved programs join in wherever they have been built.
PROGRAMS = [f"{ORACLE} program"] + [PROVED] * os.path.exists(PROVED)
PROBES = [f"{ORACLE} probe"] + [PROVED_PROBE] * os.path.exists(PROVED_PROBE)

sys.path[:0] = [ROOT, os.path.join(ROOT, "bench")]


SET_A = os.path.join(ROOT, "examples", "set-a.hex")


def text_of_set_a():
    with open(SET_A, encoding="utf-8") as opened:
        return opened.read()


def words_of_set_a(count):
    """The first words of Set A's file, 29 of the set and 3 events, as bytes."""
    words = [int(word, 16) for line in text_of_set_a().splitlines() for word in line.split("#")[0].split()]
    return b"".join(word.to_bytes(4, "little") for word in words[:count])


def hexadecimal(words):
    return " ".join(f"{word:08X}" for word in words)


def environment(program=PROGRAMS[0], probe=PROBES[0], **more):
    """The environment with these programs; that in target/ where one is None."""
    kept = {name: value for name, value in os.environ.items() if name not in ("SCRCHECK", "SCRPROBE")}
    named = {name: value for name, value in {"SCRCHECK": program, "SCRPROBE": probe}.items() if value is not None}
    return {**kept, **named, **more}


def scr(*arguments, given=b"", program=PROGRAMS[0], probe=PROBES[0], **more):
    """Exit status, standard output and standard error of ./scr; what is named besides is put into the environment."""
    done = subprocess.run(
        [sys.executable, os.path.join(ROOT, "scr"), *arguments],
        input=given,
        capture_output=True,
        env=environment(program, probe, **more),
        check=False,
    )
    return done.returncode, done.stdout.decode(errors="replace"), done.stderr.decode()


def parts(output):
    """The program's lines, and the explanation with its line breaks taken out."""
    lines = output.splitlines()
    printed = [line for line in lines if not line.startswith(" ")]
    return printed, " ".join(" ".join(line.split()) for line in lines if line.startswith(" "))


class ScrCase(unittest.TestCase):
    def printed(self, status, lines, *arguments, errors="", **more):
        """The explanation of a call that ends with this status, the program having printed these lines."""
        done, output, said = scr(*arguments, **more)
        self.assertEqual((done, parts(output)[0], said), (status, lines, errors))
        return parts(output)[1]

    def no_verdict(self, said, *arguments, output="", **more):
        """A call without a verdict: status 2, and standard error says why."""
        done, printed, errors = scr(*arguments, **more)
        self.assertEqual((done, printed), (2, output), errors)
        self.assertTrue(errors.startswith("scr: "), errors)
        self.assertIn(said, errors)
        self.assertNotIn("Traceback", errors)


class Folder(tempfile.TemporaryDirectory):
    """A directory with these files, for as long as a with statement lasts."""

    def __init__(self, files):
        super().__init__()
        for name, data in files.items():
            with open(os.path.join(self.name, name), "wb") as opened:
                opened.write(data)


class File:
    """A file with these bytes, for as long as a with statement lasts."""

    def __init__(self, data):
        self.data = data

    def __enter__(self):
        handle, self.path = tempfile.mkstemp()
        with os.fdopen(handle, "wb") as opened:
            opened.write(self.data)
        return self.path

    def __exit__(self, *_):
        os.remove(self.path)
