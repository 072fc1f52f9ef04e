"""Exit statuses: 1 is a refusal and nothing else. Whatever goes wrong is 2 with a line on standard error."""
import os
import resource
import socket
import subprocess
import sys
import unittest

from common import PROVED, ROOT, SET_A, File, Folder, ScrCase, environment, scr, words_of_set_a

REFUSED = os.path.join(ROOT, "examples", "set-a-two-rows.hex")
SCR = [sys.executable, os.path.join(ROOT, "scr")]


def run(*arguments, **streams):
    """Exit status and standard error of ./scr with other streams."""
    done = subprocess.run([*SCR, *arguments], stderr=subprocess.PIPE, check=False, **{"env": environment(), **streams})
    return done.returncode, done.stderr.decode()


class Status(ScrCase):
    def fails(self, said, *arguments, **streams):
        status, errors = run(*arguments, **streams)
        self.assertEqual((status, errors.count("\n"), errors[:5]), (2, 1, "scr: "), errors)
        self.assertIn(said, errors)

    def test_a_set_that_is_refused(self):
        self.assertEqual(scr(REFUSED)[0], 1)

    def test_events_that_stop_after_a_pass_have_a_status_of_their_own(self):
        self.assertEqual(scr(SET_A)[0], 0)
        self.assertEqual(scr(SET_A, "0=0")[:2][0], 3)
        self.printed(3, ["PASS 2 2 0", "REFUSE 16 0"], "-", "0=0", given=b"11002000")

    def test_a_closed_pipe(self):
        for arguments in ([SET_A], [REFUSED], ["--quiet", REFUSED], ["--bytes", SET_A], ["show", SET_A], ["--help"]):
            reader, writer = os.pipe()
            os.close(reader)
            self.fails("standard output took not all of the answer: Broken pipe", *arguments, stdout=writer)
            os.close(writer)

    def test_a_full_disk(self):
        for arguments in ([SET_A], [REFUSED], ["--quiet", SET_A], ["--bytes", SET_A], ["--version"]):
            with open("/dev/full", "wb") as full:
                self.fails("No space left on device", *arguments, stdout=full)

    def test_no_standard_output_or_input(self):
        self.fails("standard output is closed", SET_A, preexec_fn=lambda: os.close(1))
        self.fails("standard input is closed", "-", stdout=subprocess.DEVNULL, preexec_fn=lambda: os.close(0))

    def test_no_standard_error_leaves_the_status(self):
        for arguments, status in ([[REFUSED], 1], [["no-such-file"], 2], [[SET_A], 0]):
            done = subprocess.run([*SCR, *arguments], stdout=subprocess.DEVNULL, env=environment(), check=False, preexec_fn=lambda: os.close(2))
            self.assertEqual(done.returncode, status)

    def test_a_name_that_the_encoding_lacks(self):
        given = "11002000 # var 0 Schütz\n".encode()
        status, output, errors = scr("-", given=given, PYTHONIOENCODING="ascii")
        self.assertEqual((status, output), (2, "PASS 2 2 0\n"))
        self.assertIn("the encoding ascii has no '\\xfc', which a name holds", errors)
        self.assertNotIn("Traceback", errors)
        self.assertEqual(scr("--quiet", "-", given=given, PYTHONIOENCODING="ascii"), (0, "PASS 2 2 0\n", ""))

    def test_memory_that_does_not_suffice(self):
        # Room for the interpreter, not for the words of this file.
        with File(b"11002000 " * 400_000) as path:
            few = lambda: resource.setrlimit(resource.RLIMIT_AS, (48 << 20, 48 << 20))
            self.fails("the memory does not suffice", path, stdout=subprocess.DEVNULL, preexec_fn=few)

    def test_a_device_that_never_ends(self):
        self.no_verdict("over 4 MiB", "/dev/zero")

    def test_input_that_fails_half_way(self):
        ours, theirs = socket.socketpair()
        # The other end goes with bytes unread, so that reading fails once what was sent is read.
        theirs.send(b"unread")
        ours.send(words_of_set_a(24))
        ours.close()
        self.fails("Connection reset by peer", "-", stdin=theirs, stdout=subprocess.DEVNULL)
        theirs.close()

    def test_a_fault_that_was_not_foreseen(self):
        self.no_verdict("not foreseen: ValueError: No closing quotation", SET_A, program="'")

    def test_what_fails_before_the_command_begins(self):
        with open(SCR[1], "rb") as opened, Folder({"scr": opened.read()}) as folder:
            done = subprocess.run([sys.executable, os.path.join(folder, "scr"), SET_A], capture_output=True, check=False)
        self.assertEqual((done.returncode, done.stdout), (2, b""))
        self.assertEqual(done.stderr, b"scr: no verdict: ModuleNotFoundError No module named 'explain'\n")

    def test_a_missing_program(self):
        with File(b"") as path:
            self.no_verdict("No such file", SET_A, program=path + ".not-there")
        if not os.path.exists(PROVED):
            self.no_verdict("./build scrcheck", SET_A, program=None)

    def test_a_program_that_gives_no_verdict(self):
        for program in ("true", "false", "echo HELLO", "echo PASS 1 2", "sh -c 'echo PASS 12 24 1; exit 1'"):
            self.no_verdict("gave no verdict", SET_A, program=program)

    def test_a_verdict_that_is_cut_short(self):
        # Set A has three events; a line for each, or a refusal, must stand.
        for lines in ("PASS 12 24 1", "PASS 12 24 1\\n0 0 1 1", "PASS 12 24 1\\n0 0 1 1\\n2 0 0 10\\n1 1 1 7"):
            self.no_verdict("cut short", SET_A, program=f"printf '{lines}\\n'")
        # The last state is 10.
        self.no_verdict("gave no verdict", SET_A, program="printf 'PASS 12 24 1\\n0 0 1 1\\n1 1 1 7\\n2 0 0 1'")

    def test_a_program_that_dies_by_a_signal(self):
        self.no_verdict("it was ended by signal 9 (Killed)", SET_A, program="sh -c 'kill -9 $$'")
        status, output, errors = scr(SET_A, program="sh -c 'kill -SEGV $$'")
        self.assertEqual((status, output), (2, ""))
        self.assertRegex(errors, r"ended by signal 11 \(Segmentation fault\)\. It needs about [0-9]+ KiB of stack; `ulimit -s` tells")

    @unittest.skipUnless(os.path.exists(PROVED), "the program has not been built")
    def test_too_little_stack(self):
        small = lambda: resource.setrlimit(resource.RLIMIT_STACK, (256 << 10, 256 << 10))
        status, errors = run(SET_A, stdout=subprocess.DEVNULL, env=environment(program=PROVED), preexec_fn=small)
        self.assertEqual(status, 2)
        self.assertIn("KiB of stack", errors)

    def test_a_verdict_that_does_not_fit_the_words_is_not_explained(self):
        for verdict, status in {"PASS 1 1 1": 0, "REFUSE 2 0": 1, "REFUSE 99": 1}.items():
            output = scr("-", given=b"11002000 30000000", program=f"printf '{verdict}\\n'")
            self.assertEqual((output[0], output[1].splitlines()[0], output[2]), (status, verdict, ""))


if __name__ == "__main__":
    unittest.main()
