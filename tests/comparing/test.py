#!/usr/bin/env python3
"""Tests of the comparison itself: equal programs pass, and every kind of difference is noticed.

    python3 tests/comparing/test.py

The independent program stands in for the product, so nothing of the product is needed.
"""

import os
import sys
import unittest

sys.dont_write_bytecode = True
sys.path[:0] = [os.path.dirname(os.path.dirname(os.path.abspath(__file__)))]

import start
from comparing import calls, case_text, cases, damage, files
from comparing.case_text import CaseError
from comparing.programs import REFERENCE, Difference, build_reference, line_of, reference

SAME_CALLS = [REFERENCE, "calls"]
SAME_FILES = [REFERENCE, "solve"]
OTHER = [REFERENCE, "read"]


def saved(difference):
    """The input that a difference names."""
    path = str(difference).rsplit(" ", 1)[1]
    with open(os.path.join(start.ROOT, path), "rb") as file:
        return file.read()


class Calls(unittest.TestCase):
    def test_a_sequence_is_the_sum_of_its_calls(self):
        data = reference("make-calls", 1, 200)
        parts = calls.split(data)
        self.assertEqual(len(parts), 200)
        self.assertEqual(b"".join(parts), data)

    def test_equal_programs_pass(self):
        self.assertEqual(calls.made(SAME_CALLS, 1, 200), 200)

    def test_one_changed_bit_is_noticed_with_its_call_and_maker(self):
        with self.assertRaises(Difference) as caught:
            calls.made(SAME_CALLS, 1, 200, spoil=True)
        maker = reference("name-calls", 1, 200).decode().split()[-1]
        self.assertIn("call 199, made by %s:" % maker, str(caught.exception))
        self.assertEqual(saved(caught.exception), calls.split(reference("make-calls", 1, 200))[199])

    def test_an_answer_cut_short_is_noticed(self):
        cut = ["sh", "-c", '"$0" calls | head -n 1000', REFERENCE]
        with self.assertRaises(Difference) as caught:
            calls.made(cut, 1, 200)
        self.assertIn("call %d, made by" % (1000 // calls.LINES), str(caught.exception))

    def test_more_than_an_answer_is_noticed(self):
        longer = ["sh", "-c", '"$0" calls; echo more', REFERENCE]
        with self.assertRaises(Difference) as caught:
            calls.made(longer, 1, 200)
        self.assertIn("after the last call", str(caught.exception))

    def test_a_bad_status_is_noticed(self):
        failing = ["sh", "-c", '"$0" calls; exit 3', REFERENCE]
        with self.assertRaises(Difference):
            calls.made(failing, 1, 200)


EXAMPLE_E = """case E
head 1 1 1 0 0 2 0 0
coefficients -1 2
store 25 of 7
room 1
start -> started
run 9 -> full, 5 visits, 1 dropped, 1 kept, 2 waiting
store is 2 3 0*4 2 4  2 2 0*4 0 2  0*8  7
list is 2 1 0 0 0 0 1
"""


class Cases(unittest.TestCase):
    def made(self, text):
        return cases.compared(SAME_CALLS, cases.Reader("a text").all(text), "a text")

    def noticed(self, text, *said):
        with self.assertRaises(Difference) as caught:
            self.made(text)
        for part in said:
            self.assertIn(part, str(caught.exception))

    def test_equal_programs_give_what_the_texts_say(self):
        for name in cases.FILES:
            self.assertGreater(cases.checked(SAME_CALLS, name), 30)

    def test_a_wrong_answer_in_the_text_is_noticed_at_its_line(self):
        self.assertEqual(self.made(EXAMPLE_E), 2)
        self.noticed(EXAMPLE_E.replace("full", "finished"), "a text, line 7:", "the case says finished", "found         full")

    def test_a_wrong_count_store_or_list_in_the_text_is_noticed(self):
        self.noticed(EXAMPLE_E.replace("1 dropped", "2 dropped"), "line 7:", "state 2 1 5 2", "state 2 1 5 1")
        self.noticed(EXAMPLE_E.replace("2 3 0*4", "2 2 0*4"), "line 7:", "waiting 25 ")
        self.noticed(EXAMPLE_E.replace("is 2 1 0", "is 2 0 0"), "line 7:", "kept 1 ")

    def test_a_refusal_that_changes_memory_is_noticed(self):
        self.noticed("case a\nfile F.sys\ncoefficients 77 77\nread -> refused 1 at 0\n", "line 4:", "the case says refused 1 at 0")

    def test_one_changed_bit_is_noticed_with_its_line(self):
        with self.assertRaises(Difference) as caught:
            cases.checked(SAME_CALLS, "runs.txt", spoil=True)
        self.assertIn("made by tests/cases/runs.txt, line", str(caught.exception))

    def test_a_line_out_of_form_is_named(self):
        for line in ("visits -> finished", "head 1 2", "store 3 4 x", "sing", "file none.sys", "list is 1 2"):
            with self.assertRaises(CaseError) as caught:
                cases.Reader("a text").all("case a\n\n%s\n" % line)
            self.assertIn("a text, line 3: %s" % line, str(caught.exception))

    def test_numbers_and_files(self):
        self.assertEqual(case_text.numbers("3 -2^63 1-2^5 2^5-1 7*2"), [3, -2**63, -31, 31, 7, 7])
        self.assertEqual(case_text.numbers("5 of 1 2"), [1, 2, 1, 2, 1])
        self.assertEqual(case_text.file_bytes("0a 0b with 1=0c and ff ff first 3").hex(), "0a0cff")
        self.assertEqual(case_text.written([1, 1, 1, 0, 0, 2, 0, 0], [-1, 2]), case_text.example("F.sys"))


class Damages(unittest.TestCase):
    def text(self):
        with open(os.path.join(cases.FOLDER, damage.FILE), encoding="utf-8") as file:
            return file.read()

    def test_equal_programs_give_what_the_text_says(self):
        damages = damage.files()
        self.assertEqual(len(damages["F.sys"]), 36 + 35 * 255 + 2)
        self.assertGreater(damage.checked(SAME_CALLS, "F.sys", damages["F.sys"]), len(damages["F.sys"]))

    def test_a_wrong_answer_in_the_text_is_noticed_at_its_line(self):
        damages = damage.read_text(self.text().replace("byte 0-1: refused 3 at 0", "byte 0-1: 7 refused 1 at 0, refused 3 at 0"))
        with self.assertRaises(Difference) as caught:
            damage.checked(SAME_CALLS, "F.sys", damages["F.sys"])
        self.assertIn("the case says refused 1 at 0", str(caught.exception))

    def test_a_damage_left_out_is_noticed(self):
        with self.assertRaises(CaseError):
            damage.read_text(self.text().replace("length 35: read\n", ""))

    def test_one_changed_bit_is_noticed(self):
        with self.assertRaises(Difference):
            damage.checked(SAME_CALLS, "F.sys", damage.files()["F.sys"], spoil=True)


class Files(unittest.TestCase):
    def test_equal_programs_pass(self):
        self.assertEqual(files.generated(SAME_FILES, 1, 30, 0), 30)

    def test_one_changed_bit_is_noticed_with_its_file(self):
        with self.assertRaises(Difference) as caught:
            files.generated(SAME_FILES, 1, 30, 0, spoil=True)
        self.assertIn("seed-1-000029-", str(caught.exception))
        self.assertEqual(reference("solve", data=saved(caught.exception)).count(b"\n") > 0, True)

    def test_another_program_is_noticed(self):
        with self.assertRaises(Difference):
            files.generated(OTHER, 1, 30, 0)

    def test_slow_files_are_left_out_beyond_a_number(self):
        names = ["%d-%s.system" % (n, kind) for n, kind in enumerate(["tireless", "deep"] * 3)]
        self.assertEqual(len(files.chosen(names, 1)), 4)


class Lines(unittest.TestCase):
    def test_the_first_line_that_differs(self):
        self.assertEqual(line_of(b"a\nb\n", b"a\nc\n"), (1, "b", "c"))
        self.assertEqual(line_of(b"a\nb\n", b"a\n"), (1, "b", ""))
        self.assertEqual(line_of(b"a\n", b"a\nb\n"), (1, "", "b"))


if __name__ == "__main__":
    build_reference()
    unittest.main()
