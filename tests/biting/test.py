#!/usr/bin/env python3
"""Tests of tests/teeth itself: a refusal counts only at its place, and whatever else can happen is told and fails.

    python3 tests/biting/test.py

A small repository and a prover that answers by rote stand in for the product and the toolchain, so nothing has to be proved.
"""

import os
import shutil
import subprocess
import sys
import tempfile
import unittest

sys.dont_write_bytecode = True
HERE = os.path.dirname(os.path.abspath(__file__))
sys.path[:0] = [os.path.dirname(HERE)]

from biting.edits import Bad, Edit, cited, faults
from biting.prover import places, unread

RETURNS = "./proofs/f/Answers.antt:17:5: error: `returns`: `rw`: no occurrence of the path's left endpoint in the goal\n"
FOLLOWS = "./proofs/g/Answers.antt:2:1: error: `loop-again`: `returns` was not admitted, so this cannot be checked\n"
MISSING = ("./proofs/f/Answers.antt:4:1: error: `casts`: `goal.cast-result`: module `Goals` has no `cast-result` that can be named from here\n"
           "./proofs/f/Answers.antt:7:9: error: `returns`: record `After` has no field `g`\n")
ALONE = "fn low::g: no proof: expected answers in ./proofs/g/Answers.antt; `search` did not prove `fits`, `returns-else`\n"
LAW = "./proofs/Laws.antt:12:1: error: `sum_fits`: expected type `Nat`, but this has type `Bool`\n"
NOTE = "note: src/lib.rt:5:1: it is not proved that what the function ensures holds when it returns (`returns-else`)\n"
TYPE = "./specs/Low.antt:3:1: error: `low`: `gone` is not in scope\n"
NOT_PROVED = "fn low::f: not proved\nlogic=not-proved\nrt: rt check --only low::f checks that function and what it calls, and not the rest\n"
# what `rt check` says, and its status, by the word that stands in src/lib.rt
ANSWERS = {
    "right": ("logic=proved functions=1\n", 0),
    "wrong": (RETURNS + FOLLOWS + NOT_PROVED, 1),
    "alone": (NOTE + ALONE + NOT_PROVED, 1),
    "law": (LAW + NOT_PROVED, 1),
    "shape": (MISSING + FOLLOWS + NOT_PROVED, 1),
    "syntax": ("src/lib.rt:1:1: error[unknown-name]: cannot find value `x` in this scope\n", 1),
    "text": (TYPE + RETURNS + NOT_PROVED, 1),
    "unsure": ("rattle: no verdict: out of memory\n", 3),
}
# `rt all check` keeps something of each crate; `rt check` wants that of the crate and of the library below, and answers by the word in the source
RT = """#!/bin/sh
case $1 in
all)
    echo "== summary"
    low=0
    for crate in crates/low crates/high; do
        [ -d "$crate" ] || continue
        [ "$low" = 0 ] || { echo "${crate##*/}: not run, low failed"; continue; }
        status=$(cat "$KIT/$(cat "$crate/src/lib.rt").status")
        mkdir -p "$crate/out/incremental" "$crate/out/rlib"
        echo kept >"$crate/out/incremental/part.oantt"; echo note >"$crate/out/incremental/note"; echo made >"$crate/out/rlib/stamp"
        case $status in 0) echo "${crate##*/}: ok" ;; *) echo "${crate##*/}: failed ($status)"; low=$status ;; esac
    done
    echo "some of them crates ok" ;;
check)
    word=$(cat src/lib.rt)
    [ -f out/incremental/part.oantt ] && [ -f ../../crates.txt ] || { echo "nothing to begin with"; exit 2; }
    grep -q '^high' ../../crates.txt && { [ -f ../low/out/rlib/stamp ] || { echo "no library low"; exit 2; }; }
    echo more >>out/incremental/note
    cat "$KIT/$word.said"; exit "$(cat "$KIT/$word.status")" ;;
esac
"""


def write(path, text):
    os.makedirs(os.path.dirname(path), exist_ok=True)
    with open(path, "w", encoding="utf-8") as file:
        file.write(text)
    return path


class Folder(unittest.TestCase):
    def setUp(self):
        self.room = tempfile.mkdtemp()
        self.addCleanup(shutil.rmtree, self.room)

    def edit(self, text, crate="low", name="one", folder="teeth"):
        return write(os.path.join(self.room, "crates", crate, folder, name + ".edit"), text)

    def source(self, text, crate="low", file="src/lib.rt"):
        write(os.path.join(self.room, "crates", crate, file), text)
        return os.path.join(self.room, "crates", crate)


class Reading(Folder):
    def refused(self, text, words):
        with self.assertRaises(Bad) as caught:
            Edit(self.edit(text))
        self.assertIn(words, str(caught.exception))

    def test_an_edit_keeps_its_spaces_and_may_have_an_empty_new(self):
        edit = Edit(self.edit("# why\n\nfile: src/lib.rt\nold:   a: b\nnew:\nat: src/lib.rt  returns\n"))
        self.assertEqual(edit.pairs, [("src/lib.rt", "  a: b", "")])
        self.assertEqual(edit.at, ["src/lib.rt", "returns"])
        self.assertEqual(cited(edit.path), "low!one")

    def test_lines_out_of_place_are_told(self):
        self.refused("file: src/lib.rt\nold: a\nnew: b\nta: x\n", "its line 'ta: x' is out of place")
        self.refused("file: src/lib.rt\nold: a\nnew: b\nat: x\nat: y\n", "its line 'at: y' is out of place")
        self.refused("old: a\nnew: b\n", "its line 'new: b' is out of place")
        self.refused("file: src/lib.rt\nold: a\nold: b\nnew: c\n", "its line 'old: b' is out of place")
        self.refused("file: src/lib.rt\nnew: b\n", "its line 'new: b' is out of place")

    def test_half_an_edit_is_told(self):
        self.refused("file: src/lib.rt\nold: a\nnew: b\nold: c\n", "no whole pair")
        self.refused("file: src/lib.rt\nat: x\n", "no whole pair")

    def test_only_code_and_definitions_are_edited(self):
        self.refused("file: proofs/f/Answers.antt\nold: a\nnew: b\n", "not below src/ or specs/")
        self.refused("file: src/../../high/src/lib.rt\nold: a\nnew: b\n", "not below src/ or specs/")


class Fitting(Folder):
    def faults(self, pairs, source="a b b c fn f\n"):
        self.edit("file: src/lib.rt\n%sat: low::f returns\n" % pairs)
        return faults(self.source(source))

    def test_pairs_are_made_one_after_the_other(self):
        edit = Edit(self.edit("file: src/lib.rt\nold: a\nnew: c\nold: c b\nnew: d\n"))
        self.assertEqual(edit.fits(self.source("a b b c\n")), {"src/lib.rt": "d b c\n"})

    def test_an_edit_that_fits(self):
        self.assertEqual(self.faults("old: a\nnew: d\n"), (1, []))

    def test_a_text_that_stands_never_or_twice(self):
        self.assertEqual(self.faults("old: e\nnew: d\n")[1], ["low!one: it no longer fits: 'e' stands 0 times in src/lib.rt"])
        self.assertEqual(self.faults("old: b\nnew: d\n")[1], ["low!one: it no longer fits: 'b' stands 2 times in src/lib.rt"])

    def test_a_name_that_the_prover_makes_is_carried_over_to_the_proofs(self):
        text = "file: src/lib.rt\nold: a\nnew: d\nas: i-ge1 i-ge2\n"
        edit, crate = Edit(self.edit(text)), self.source("a b b c fn f\n")
        with self.assertRaises(Bad) as caught:
            edit.fits(crate)
        self.assertIn("no file of proofs/ names i-ge1", str(caught.exception))
        self.source("use goal.{returns-then-i-ge1, i-ge10}\nc.if-i-ge1.true\n", file="proofs/f/Answers.antt")
        self.source("i-ge10\n", file="proofs/Laws.antt")
        self.assertEqual(edit.fits(crate), {"src/lib.rt": "d b b c fn f\n", "proofs/f/Answers.antt": "use goal.{returns-then-i-ge2, i-ge10}\nc.if-i-ge2.true\n"})

    def test_only_names_that_the_prover_makes_are_carried_over(self):
        for line in ("refl sym", "i-ge1", "i-ge1 i-ge2 i-ge3", "i-ge1 refl", "(i-ge1) (i-ge2)"):
            with self.assertRaises(Bad) as caught:
                Edit(self.edit("file: src/lib.rt\nold: a\nnew: d\nas: %s\n" % line))
            self.assertIn("has not two names of the prover's", str(caught.exception))

    def test_a_file_that_is_gone(self):
        self.edit("file: src/gone.rt\nold: a\nnew: b\n", folder="must-fail")
        self.assertEqual(faults(self.source("a")), (1, ["low!one: it no longer fits: there is no file src/gone.rt"]))

    def test_only_teeth_need_a_place_and_names_are_taken_once(self):
        text = "file: src/lib.rt\nold: a\nnew: b\n"
        self.edit(text, folder="must-fail")
        self.edit(text + "at: low::f returns\n")
        self.edit(text, name="two")
        count, wrong = faults(self.source("a fn f"))
        self.assertEqual(count, 3)
        self.assertIn("must-fail/ has an edit of the same name", wrong[0])
        self.assertIn("low!two: it has no line at:", wrong[1])

    def test_a_place_has_two_words_and_its_file_or_function_is_there(self):
        for place, words in (("returns", "has one word"), ("proofs/Laws.antt law", "names proofs/Laws.antt, which is not there"),
                             ("low::g returns", "names low::g, which is no function of the crate"),
                             ("high::f returns", "names high::f"), ("f returns", "names f,")):
            self.edit("file: src/lib.rt\nold: a\nnew: b\nat: %s\n" % place)
            self.assertIn(words, faults(self.source("a fn f()"))[1][0])
        self.source("-- a law\npub law : Nat\nother n = law\n", file="proofs/Laws.antt")
        self.edit("file: src/lib.rt\nold: a\nnew: b\nat: proofs/Laws.antt n\n")
        self.assertEqual(faults(self.source("a"))[1], ["low!one: its line at: names n, which proofs/Laws.antt does not declare"])
        for place in ("low::f returns", "low::inner::f returns", "proofs/Laws.antt law"):
            self.edit("file: src/lib.rt\nold: a\nnew: b\nat: %s\n" % place)
            self.assertEqual(faults(self.source("a fn f()"))[1], [])


class Places(unittest.TestCase):
    def test_a_fact_is_a_place_and_what_follows_or_is_not_understood_is_none(self):
        found = places("low", RETURNS + FOLLOWS + MISSING + NOTE + ALONE + LAW + TYPE + "note: no function is declared\n" + NOT_PROVED)
        self.assertEqual([place.words for place in found], [["low::f", "returns", "proofs/f/Answers.antt"], ["low::g", "fits"], ["low::g", "returns-else"],
                                                            ["proofs/Laws.antt", "sum_fits"]])

    def test_a_goal_that_no_file_answers_counts_unless_the_file_cites_what_is_gone(self):
        left = NOTE + "fn low::f: not proved\n"
        self.assertEqual([place.words for place in places("low", left)], [["low::f", "returns-else"]])
        self.assertEqual([place.words[:2] for place in places("low", RETURNS + left)], [["low::f", "returns"], ["low::f", "returns-else"]])
        self.assertEqual(places("low", MISSING + left), [])
        self.assertEqual(places("low", NOTE + "fn low::h: proved\nfn low::f: not proved\n"), [])

    def test_words_are_whole_and_all_of_them_in_one_place(self):
        place, = places("low", RETURNS)
        self.assertTrue(place.named(["low::f", "returns"]))
        self.assertTrue(place.named(["proofs/f/Answers.antt", "returns"]))
        self.assertFalse(place.named(["low::f", "return"]))
        self.assertFalse(place.named(["low", "returns"]))
        self.assertFalse(place.named(["returns", "occurrence"]))

    def test_functions_in_modules_types_and_cycles(self):
        for folder, function in (("head/Head/place", "low::head::Head::place"), ("text/+put", "low::text::put")):
            place, = places("low", RETURNS.replace("/f/", "/%s/" % folder))
            self.assertTrue(place.named([function, "returns"]))

    def test_words_in_the_terms_that_a_message_shows_do_not_count(self):
        place, = places("low", "./proofs/f/Answers.antt:1:1: error: `close`: the types differ where one has `returns`\n")
        self.assertTrue(place.named(["low::f", "close"]))
        self.assertFalse(place.named(["returns"]))

    def test_a_text_that_is_not_understood(self):
        for said in (ANSWERS["syntax"][0], ANSWERS["text"][0], "specs/Low.antt:3:1: error: expected the end of the line\n"):
            self.assertIsNotNone(unread(said))
        for said in (RETURNS, LAW, NOTE, "./specs/Low.antt:3:1: error: `low`: expected type `Nat`, but this has type `Bool`\n"):
            self.assertIsNone(unread(said))


class Whole(Folder):
    """The command, with an rt that answers by rote."""

    def setUp(self):
        super().setUp()
        tests = os.path.dirname(HERE)
        os.makedirs(os.path.join(self.room, "tests"))
        shutil.copy(os.path.join(tests, "teeth"), os.path.join(self.room, "tests", "teeth"))
        shutil.copytree(HERE, os.path.join(self.room, "tests", "biting"))
        write(os.path.join(self.room, "crates.txt"), "# theory\nlow:\nhigh staticlib: low json   # the top\nother: low\n")
        self.source("right")
        self.source("right", crate="high")
        self.kit = os.path.join(self.room, "kit")
        for word, (said, status) in ANSWERS.items():
            write(os.path.join(self.kit, word + ".said"), said)
            write(os.path.join(self.kit, word + ".status"), str(status))
        os.chmod(write(os.path.join(self.room, "bin", "rt"), RT), 0o755)

    def teeth(self, *words):
        """The status and the lines of a run."""
        given = dict(os.environ, PATH=os.path.join(self.room, "bin") + ":" + os.environ["PATH"], KIT=self.kit, RT_JOBS="2")
        said = subprocess.run([sys.executable, os.path.join(self.room, "tests", "teeth"), *words], env=given, stdout=subprocess.PIPE, check=False)
        return said.returncode, said.stdout.decode().splitlines()

    def word(self, word, at="at: low::f returns\n", **where):
        return self.edit("file: src/lib.rt\nold: right\nnew: %s\n%s" % (word, at), **where)

    def fails(self, words, *given):
        """The run fails, and one line has the words."""
        status, lines = self.teeth(*given)
        self.assertEqual(status, 1, lines)
        self.assertIn(words, "\n".join(line for line in lines if line.startswith("FAILED: ")))
        self.assertRegex(lines[-1], r"^\d+ refused at their places, [1-9]\d* failed$")
        return lines

    def test_refused_at_its_place(self):
        self.word("wrong")
        self.word("alone", at="at: low::g returns-else\n", name="bare")
        self.word("law", at="at: proofs/Laws.antt sum_fits\n", crate="high", name="two")
        status, lines = self.teeth()
        self.assertEqual((status, lines[-1]), (0, "3 refused at their places, 0 failed"))
        self.assertRegex("\n".join(lines), r"ok: high!two: refused at proofs/Laws.antt sum_fits, \d+\.\d s")
        self.assertEqual(self.teeth("high")[1][-1], "1 refused at their places, 0 failed")
        with open(os.path.join(self.room, "target", "teeth", "low", "bare.log")) as log:
            self.assertEqual(log.read(), ANSWERS["alone"][0])

    def test_each_way_to_fail_is_told(self):
        self.word("wrong", at="", name="nowhere")
        self.word("wrong", at="at: low::g returns\n", name="other")
        self.word("right", name="same")
        self.word("shape", name="shape")
        self.word("syntax", name="syntax")
        self.word("text", name="text")
        self.word("unsure", name="unsure")
        self.edit("file: src/lib.rt\nold: gone\nnew: wrong\nat: x\n", name="gone")
        self.word("wrong", name="good")
        told = "\n".join(self.fails("low!nowhere: it has no line at:"))
        for words in ("low!other: it is refused elsewhere, not at 'low::g returns': ./proofs/f/Answers.antt:",
                      "low!same: NOT REFUSED", "low!shape: it is refused at no fact", "low!syntax: no verdict on it (status 1)",
                      "low!text: no verdict on it (status 1)", "low!unsure: no verdict on it (status 3)", "low!gone: it no longer fits",
                      "1 refused at their places, 8 failed"):
            self.assertIn(words, told)

    def test_a_crate_that_is_not_proved(self):
        self.word("wrong")
        self.word("wrong", crate="high", name="two")
        self.source("unsure", crate="high")
        told = self.fails("high: the crate itself is not proved (failed (3)), and none of its edits was tried")
        self.assertEqual(told[-1], "1 refused at their places, 1 failed")

    def test_a_library_that_is_missing(self):
        self.word("wrong", crate="high")
        self.source("unsure")
        self.fails("high: the crate itself is not proved (not run, low failed), and none of its edits was tried")

    def test_names_that_are_no_crates_or_have_no_edit(self):
        self.fails("no crate has an edit in teeth/")
        self.word("wrong")
        self.fails("there is no crate hihg", "low", "hihg")
        self.fails("the crate high has no edit in teeth/", "high")

    def test_a_place_is_learned_where_there_is_none_or_another(self):
        path = self.edit("file: src/lib.rt\nold: right\nnew: alone")
        for old, place in (("", ["low::g", "returns-else"]), ("at: low::g before\n", ["low::g", "returns-else"]), ("at: low::g fits\n", ["low::g", "fits"])):
            write(path, "file: src/lib.rt\nold: right\nnew: alone\n" + old)
            self.assertEqual(self.teeth("--learn")[0], 0)
            self.assertEqual((Edit(path).pairs, Edit(path).at), ([("src/lib.rt", "right", "alone")], place))
        self.assertEqual(self.teeth()[0], 0)

    def test_fit_asks_no_prover(self):
        self.source("right fn f()")
        self.word("right")
        self.word("wrong", at="", folder="must-fail", name="two")
        self.assertEqual(self.teeth("--fit"), (0, ["2 edits, 0 failed"]))
        self.word("wrong", at="", name="three")
        status, lines = self.teeth("--fit", "low")
        self.assertEqual((status, lines[-1]), (1, "3 edits, 1 failed"))
        self.assertEqual(self.teeth("--fit", "high")[1][0], "FAILED: the crate high has no edit in must-fail/ or teeth/")


if __name__ == "__main__":
    unittest.main()
