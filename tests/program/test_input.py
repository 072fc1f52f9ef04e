"""That the program reads all of its input (the first 32,768 bytes) however it comes, and writes all of its output: what it prints is byte by byte
what the oracle's program prints. Where a read fails it prints nothing, and where a write fails it doesn't keep silent. The exit status goes with what is
printed. No contract says so of `main`. Nor does one say what stack it needs."""
import fcntl
import functools
import itertools
import os
import re
import resource
import signal
import socket
import subprocess
import sys
import termios
import time
import unittest

from inputs import biggest, deepest, longest_output, set_a, stored
from common import ORACLE, PROVED, ROOT
from explain.program import STACK
from explain.source import as_bytes
from words import assertion

if not os.path.exists(PROVED):
    sys.exit("build the program first: ./build scrcheck")

SET_A, STORED, BIGGEST, LONGEST, DEEPEST = set_a(), stored(), biggest(), longest_output(), deepest()
# Bytes handed over at a time, again and again. Most break a word.
PIECES = (1, 3, 4096, 5, 2, 4099, 7, 1000)
# All that standard error says where the input can't be read, and where the output can't be written; the system's reason follows.
NO_VERDICT = b"scrcheck: standard input can't be read to its end: no verdict"
NOT_COMPLETE = b"scrcheck: standard output can't be written: the verdict is not complete"


def printed(given):
    """What the program prints; its exit status is the one that goes with it."""
    status, output, said = ran(input=given)
    if (status, said) != (status_of(output), b""):
        raise AssertionError(f"status {status} and {said!r} for an output that begins {output[:40]!r}")
    return output


def status_of(output):
    """0 for a pass with all events done, 1 for a refusal, 3 for a pass after which not all is done."""
    return 1 if output.startswith(b"REFUSE") else 3 if b"REFUSE" in output else 0


@functools.cache
def expected(given):
    return subprocess.run([ORACLE, "program"], input=given, stdout=subprocess.PIPE, check=True).stdout


def ran(command=(PROVED,), **streams):
    """The exit status and all that is printed to standard output and error, with these for its streams; of a fault the system's reason is left out."""
    streams = {"stdout": subprocess.PIPE, "stderr": subprocess.PIPE, **streams}
    done = subprocess.run(command, check=False, **streams)
    return done.returncode, done.stdout, re.sub(rb" \([^()]+ \(os error [0-9]+\)\)\n$", b"", done.stderr)


def ran_on_a_socket(given, broken):
    """So with an input that ends after these bytes, or at which the next read fails: the other end is closed with data in it that nobody has read."""
    ours, theirs = socket.socketpair()
    with theirs:
        if broken:
            theirs.send(b"unread")
        ours.sendall(given)
        ours.close()
        return ran(stdin=theirs)


def waiting(pipe):
    """How many bytes stand in a pipe."""
    return int.from_bytes(fcntl.ioctl(pipe, termios.FIONREAD, bytes(4)), sys.byteorder)


def state(child):
    """S for a program that waits, T for one that was stopped."""
    with open(f"/proc/{child.pid}/stat", encoding="ascii") as opened:
        return opened.read().rpartition(") ")[2][0]


def wait(child, done):
    """Until something is so, or the program has ended."""
    while child.poll() is None and not done():
        time.sleep(0.0001)


def printed_by_pieces(given):
    """What the program prints where no read gets more than one piece: each is handed over when the one before has been taken."""
    sizes, at = itertools.cycle(PIECES), 0
    with subprocess.Popen([PROVED], bufsize=0, stdin=subprocess.PIPE, stdout=subprocess.PIPE) as child:
        try:
            while at < len(given):
                size = next(sizes)
                child.stdin.write(given[at : at + size])
                wait(child, lambda: waiting(child.stdin) == 0)
                at += size
        except BrokenPipeError:
            pass  # It has stopped reading.
        return child.communicate()[0]


def printed_by_short_writes(given):
    """What the program prints where a write is cut short, as it is if the program is stopped while it waits for room, and then goes on."""
    with subprocess.Popen([PROVED], stdin=subprocess.PIPE, stdout=subprocess.PIPE) as child:
        room = fcntl.fcntl(child.stdout, fcntl.F_SETPIPE_SZ, 4096)
        child.stdin.write(given)
        child.stdin.close()
        wait(child, lambda: waiting(child.stdout) == room and state(child) == "S")
        child.send_signal(signal.SIGSTOP)
        wait(child, lambda: state(child) == "T")
        child.send_signal(signal.SIGCONT)
        return child.stdout.read()


class Input(unittest.TestCase):
    def same(self, output, given):
        lines = itertools.zip_longest(output.splitlines(True), expected(given).splitlines(True))
        different = [(i, line, other) for i, (line, other) in enumerate(lines) if line != other]
        self.assertEqual(different[:1], [], f"input of {len(given)} bytes: first line that differs, printed and expected")

    def all_done(self, given):
        """Each event has its line, so that the last words show."""
        output = printed(given)
        self.same(output, given)
        self.assertEqual((output[:5], output.count(b"\n")), (b"PASS ", 1 + 4096))

    def test_the_stored_files(self):
        for name, content in {"stdin": STORED, "stdout": expected(STORED)}.items():
            with open(os.path.join(ROOT, "crates", "scrcheck", name), "rb") as opened:
                self.assertTrue(opened.read() == content, f"crates/scrcheck/{name} is another: see inputs.py")
        self.all_done(STORED)

    def test_the_biggest_input(self):
        self.assertEqual(len(BIGGEST), 4 * (4096 + 4096))
        self.all_done(BIGGEST)

    def test_the_longest_output(self):
        self.assertEqual(len(expected(LONGEST)), 72640)
        self.all_done(LONGEST)

    def test_output_taken_late(self):
        self.same(printed_by_short_writes(LONGEST), LONGEST)

    def test_what_stands_beyond_is_ignored(self):
        for more in (b"\1", BIGGEST[-4:], bytes(40000)):
            output = printed(BIGGEST + more)
            self.same(output, BIGGEST + more)
            self.same(output, BIGGEST)

    def test_input_in_pieces(self):
        for given in (STORED, BIGGEST, BIGGEST + b"\1"):
            self.same(printed_by_pieces(given), given)

    def test_a_broken_last_word_in_pieces(self):
        for lost in (1, 2, 3):
            for given in (STORED[:-lost], BIGGEST[:-lost]):
                self.assertTrue(expected(given).endswith(b"\nREFUSE 16 4095\n"))
                self.same(printed_by_pieces(given), given)

    def test_an_empty_input(self):
        self.assertEqual(expected(b""), b"REFUSE 1 0\n")
        self.same(printed(b""), b"")

    def test_nothing_is_read_after_the_end(self):
        # Each read takes one message. An empty one ends the input, as a terminal does, after which more might come.
        for messages in ([SET_A, b""], [SET_A[:7], SET_A[7:], b""], [BIGGEST], [b""]):
            ours, theirs = socket.socketpair(type=socket.SOCK_SEQPACKET)
            with theirs:
                for message in [*messages, b"more"]:
                    ours.send(message)
                ours.close()
                self.assertEqual(ran(stdin=theirs), (status_of(expected(b"".join(messages))), expected(b"".join(messages)), b""))
                self.assertEqual(theirs.recv(100), b"more")


class Failing(unittest.TestCase):
    def test_a_read_that_fails_after_some_bytes(self):
        # What comes before the assertion passes too, and so does a set with some of its events.
        for given in (SET_A[: SET_A.index(as_bytes(assertion([])))], SET_A, STORED[: len(SET_A) + 4000]):
            self.assertEqual(expected(given)[:5], b"PASS ")
            for cut in (0, 1, 2, 3):
                part = given[: len(given) - cut]
                self.assertEqual(ran_on_a_socket(part, broken=True), (2, b"", NO_VERDICT))
                self.assertEqual(ran_on_a_socket(part, broken=False), (status_of(expected(part)), expected(part), b""))

    def test_a_read_that_would_have_to_wait(self):
        theirs, ours = os.pipe()
        with open(theirs, "rb") as stdin, open(ours, "wb", buffering=0) as pipe:
            os.set_blocking(theirs, False)
            pipe.write(SET_A)
            self.assertEqual(ran(stdin=stdin), (2, b"", NO_VERDICT))

    def test_a_first_read_that_fails(self):
        self.assertEqual(ran_on_a_socket(b"", broken=True), (2, b"", NO_VERDICT))
        self.assertEqual(ran(["sh", "-c", 'exec "$0" <&-', PROVED]), (2, b"", NO_VERDICT))
        self.assertEqual(ran(["sh", "-c", 'exec "$0" <.', PROVED]), (2, b"", NO_VERDICT))

    def test_output_that_cannot_be_written(self):
        for command in ('exec "$0" >/dev/full', 'exec "$0" >&-'):
            self.assertEqual(ran(["sh", "-c", command, PROVED], input=SET_A), (2, b"", NOT_COMPLETE))

    def test_output_of_which_a_part_is_written(self):
        ours, theirs = os.pipe()
        with open(ours, "rb", buffering=0) as pipe, open(theirs, "wb") as stdout:
            room = fcntl.fcntl(pipe, fcntl.F_SETPIPE_SZ, 4096)
            os.set_blocking(theirs, False)
            self.assertEqual(ran(input=LONGEST, stdout=stdout), (2, None, NOT_COMPLETE))
            self.assertEqual(pipe.read(2 * room), expected(LONGEST)[:room])


class Stack(unittest.TestCase):
    def test_the_stack_is_enough(self):
        def limited():
            resource.setrlimit(resource.RLIMIT_STACK, (STACK * 1024, STACK * 1024))

        for given in (BIGGEST, LONGEST, STORED, DEEPEST, SET_A):
            self.assertEqual(expected(given)[:5], b"PASS ")
            # The environment would take of the stack.
            self.assertEqual(ran(input=given, env={}, preexec_fn=limited), (0, expected(given), b""))


if __name__ == "__main__":
    unittest.main()
