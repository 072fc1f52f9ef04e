"""Text that was taken for bytes, bytes in another order, and words of few digits: the words are not what their writer meant."""
import os
import unittest

from common import ROOT, ScrCase, scr, text_of_set_a, words_of_set_a
from explain.source import from_text

with open(os.path.join(ROOT, "examples", "set-a-other-order.hex"), encoding="utf-8") as opened:
    OTHER_ORDER = from_text(opened.read()).set_bytes()


def turned(words):
    """The bytes of each word in the opposite order."""
    return b"".join(words[at : at + 4][::-1] for at in range(0, len(words), 4))


class TakenForBytes(ScrCase):
    def told(self, given, *said):
        status, output, errors = scr("-", given=given)
        self.assertEqual((status, errors), (1, ""))
        explanation = " ".join(output.split())
        for part in said:
            self.assertIn(part, explanation)
        self.no_verdict("nothing is written. TAKEN FOR BYTES", "--bytes", "-", given=given)

    def test_a_latin_1_letter_in_a_comment(self):
        given = text_of_set_a().replace("# var 1 Start", "# var 1 Schütz").encode("latin-1")
        at = given.index(b"\xfc")
        because = f"TAKEN FOR BYTES, four a word, because of byte FC at line 9 (byte {at} of the file), which no UTF-8 text has."
        self.told(given, because, "The file reads as hexadecimal text in LATIN-1. Save it as UTF-8 and try again.")

    def test_a_letter_that_looks_like_an_event(self):
        # The degree sign is B0: nothing is cut here, the file is a text.
        given = b"# up to 20 \xb0C\n" + text_of_set_a().encode()
        self.told(given, "The file reads as hexadecimal text in LATIN-1.")
        self.assertNotIn("CUT SHORT", scr("-", given=given)[1])

    def test_a_text_with_words_mistyped(self):
        given = text_of_set_a().replace("A1000000", "A1OO0000").encode() + b"# \xfc"
        self.told(given, "The file reads as hexadecimal text in LATIN-1, but for 'A1OO0000' at line 23.")

    def test_a_nul(self):
        given = text_of_set_a().encode().replace(b"\n", b"\0\n", 3)
        self.told(given, "because of byte 00 at line 1", "reads as hexadecimal text in UTF-8. Take its control characters out and try again.")

    def test_line_ends_of_other_systems_count_once(self):
        self.told(b"11002000\r\n11002000\r11002000 # \xfc\r\n", "because of byte FC at line 3")

    def test_utf_16(self):
        for encoding, bom in {"utf-16-le": b"\xff\xfe", "utf-16-be": b"\xfe\xff"}.items():
            text = text_of_set_a().encode(encoding)
            self.told(bom + text, f"because of byte {bom[0]:02X} at line 1", "reads as hexadecimal text in UTF-16")
            self.told(text, "because of byte 00 at line 1", "reads as hexadecimal text in UTF-16")

    def test_bytes_in_the_opposite_order(self):
        for count in (29, 32):
            words = words_of_set_a(count)
            self.turned_around(words, turned(words))

    def test_tables_in_another_order_in_bytes_in_the_opposite_order(self):
        self.turned_around(OTHER_ORDER, turned(OTHER_ORDER))

    def turned_around(self, words, other):
        said = "With the bytes of each word in the opposite order the words have the form of a set: the lowest byte of a word comes first."
        self.told(other, "TAKEN FOR BYTES", said)
        # Said of bytes that were called bytes, too.
        self.assertIn(said, " ".join(scr("--binary", "-", given=other)[1].split()))
        # And of such words in hexadecimal.
        explanation = " ".join(scr("-", given=words.hex(" ", 4).encode())[1].split())
        self.assertIn(said, explanation)
        self.assertNotIn("TAKEN", explanation)

    def test_text_that_is_called_bytes(self):
        explanation = " ".join(scr("--binary", "-", given=text_of_set_a().encode())[1].split())
        self.assertIn("The file reads as hexadecimal text in UTF-8. Leave --binary out and try again.", explanation)

    def test_bytes_that_are_no_text_in_any_way(self):
        given = words_of_set_a(28)
        explanation = self.printed(1, ["REFUSE 2 28"], "-", given=given)
        self.assertTrue(explanation.startswith("TAKEN FOR BYTES"), explanation)
        self.assertNotIn("reads as hexadecimal text", explanation)
        self.assertNotIn("opposite order", explanation)
        # Who says that they are bytes may have them.
        self.no_verdict("If it has the bytes of a set, say --binary.", "--bytes", "-", given=given)
        self.assertEqual(scr("--bytes", "--binary", "-", given=given)[0], 0)

    def test_no_bytes(self):
        for given in (b"", b"B0000001"):
            self.no_verdict("there is no word of a set", "--bytes", "-", given=given)

    def test_a_set_of_bytes_is_not_doubted(self):
        for arguments in (["-"], ["--binary", "-"]):
            self.assertNotIn("TAKEN", self.printed(0, ["PASS 12 24 1"], *arguments, given=words_of_set_a(29)))
        # A refusal that is not about the words' form says nothing of bytes either.
        for given, refusal in {words_of_set_a(17): "REFUSE 6 3", OTHER_ORDER: "REFUSE 21 11"}.items():
            self.assertNotIn("TAKEN", self.printed(1, [refusal], "-", given=given))
            self.assertEqual(scr("--bytes", "-", given=given)[0], 0)

    def test_told_on_standard_error_where_nothing_is_explained(self):
        status, output, errors = scr("--quiet", "-", given=b"11002000 # \xfc")
        self.assertEqual((status, output), (1, "REFUSE 2 0\n"))
        self.assertIn("scr: TAKEN FOR BYTES", errors)


class Commented(ScrCase):
    def test_words_behind_a_sign_that_was_not_meant(self):
        for comment in ("#A1000000", "# A1000000", "#0xa1000000"):
            given = text_of_set_a().replace("A1000000", comment).encode()
            word = comment.strip("# ")
            warning = f"scr: warning: line 23: the comment begins with {word}, which looks like a word; what follows a # is not read\n"
            self.assertEqual(scr("--bytes", "-", given=given)[2], warning)

    def test_other_comments(self):
        self.printed(0, ["PASS 2 2 0"], "-", given=b"11002000 # the word 11002000\n# Feed\n#\n")


class FewDigits(ScrCase):
    def test_a_word_of_few_digits_gets_a_warning(self):
        warning = "scr: warning: line 2: 'Feed' has fewer than 8 digits and is taken for the word 0000FEED\n"
        self.printed(1, ["REFUSE 2 1"], "-", given=b"11002000\nFeed", errors=warning)
        self.assertEqual(scr("--bytes", "-", given=b"11002000\nFeed")[2], warning)

    def test_the_digits_count_without_the_prefix(self):
        warning = "scr: warning: line 1: '0x1002000' has fewer than 8 digits and is taken for the word 01002000\n"
        self.printed(1, ["REFUSE 2 0"], "-", given=b"0x1002000", errors=warning)
        self.printed(0, ["PASS 2 2 0"], "-", given=b"0x11002000")

    def test_an_event_of_few_digits(self):
        warning = "scr: warning: event 2 of the command line: 'Feed' has fewer than 8 digits and is taken for the word 0000FEED\n"
        self.printed(3, ["PASS 2 2 0", "0 0 1 1", "REFUSE 16 1"], "-", "0=1", "Feed", given=b"11002000", errors=warning)

    def test_many_warnings_are_cut_each_kind_by_itself(self):
        errors = scr("-", given=b"11002000 # var 0 Guard: 0=open\n" + b"1 " * 50)[2].splitlines()
        self.assertEqual((len(errors), errors[20]), (22, "scr: warning: and 30 more of this kind"))
        self.assertIn("'0=open' names no value", errors[21])


if __name__ == "__main__":
    unittest.main()
