#!/usr/bin/env python3
"""Tests of tests/statements.py and tests/names.py themselves: a statement, its proof or a cited name that is gone, hidden or weakened is told.

    python3 tests/citing/test.py

First on a small repository, then on copies of this one's crates and documents. Nothing is proved.
"""
import pathlib
import re
import shutil
import subprocess
import sys
import tempfile
import unittest

sys.dont_write_bytecode = True
TESTS = pathlib.Path(__file__).resolve().parent.parent
ROOT = TESTS.parent

SMALL = {
    "crates/low/specs/Lib.antt": "pub mod Kinds\npub mod Claims\n",
    "crates/low/specs/Kinds.antt": """-- lines of numbers; once there was `Gone`
use Rattle.std.specs.Prelude.{ℕ}

abbrev pub Line : Type 0
Line = ℕ → ℕ

-- abbrev pub Old : Type 0
{- abbrev pub Older : Type 0
Older = ℕ -}

pub record Pair : Type 0 where
  pub left : ℕ
  pub right : ℕ

module _ (l : Line) where
  pub data Side : Type 0 where
    above below : Side

  abbrev pub side : Pair → Side
  side inside = inner
    where
      inner : ℕ
      inner = 0
""",
    "crates/low/specs/Claims.antt": """use Rattle.low.specs.Kinds.{Line}

abbrev pub AllWell : Type 0
AllWell = (l : Line) → l ≡ l

abbrev pub NeverLost : Type 0
NeverLost = (l : Line) → l 0 ≡ l 0
""",
    "crates/low/proofs/Lib.antt": "pub mod Claims\nmod Deep\n",
    "crates/low/proofs/Claims.antt": """use Rattle.low.specs.Claims.{AllWell}

pub all_well : AllWell
all_well l = refl
""",
    "crates/low/proofs/Deep.antt": "mod Lost\n",
    "crates/low/proofs/Deep/Lost.antt": """use Rattle.low.specs.Claims.{NeverLost}

-- nothing is lost
pub never_lost : NeverLost
never_lost l = refl
""",
    "crates/low/src/lib.rt": """pub mod half;
// pub mod quarter;

pub const WIDTH: u8 = 6;

/* fn older() {} */
pub fn first(xs: &[u8]) -> u8 {
    // fn old() {}
    let kept = other(xs);
    kept
}
""",
    "crates/low/src/half.rt": """pub enum Side {
    Above,
    Below(u8),
}

pub struct Box {
    pub s: u8,
}

impl Box {
    pub fn lower(self) -> Box {
        self
    }
}
""",
    "crates/low/src/quarter.rt": "pub fn lost() {}\n",
    "crates/low/teeth/wrong.edit": "",
    "README.md": "",
    "docs/CLAIMS.md": """| Sentence | Definition | Promise | Teeth |
|---|---|---|---|
| All is well. | `low/Kinds.Line`, `Pair` | `low::first`; `low/Claims.AllWell` | `low!wrong` |
""",
    "docs/ENEMY.md": "## low/Claims: both\n\n| Statement | Tried |\n|---|---|\n| `NeverLost` | To lose `Pair`. |\n",
}
CLAIMS, KINDS, LOST = "crates/low/specs/Claims.antt", "crates/low/specs/Kinds.antt", "crates/low/proofs/Deep/Lost.antt"


class Room(unittest.TestCase):
    """A repository in a folder of its own, with both checks."""

    def setUp(self):
        self.room = pathlib.Path(tempfile.mkdtemp())
        self.addCleanup(shutil.rmtree, self.room)
        (self.room / "tests").mkdir()
        for check in ("statements.py", "names.py"):
            shutil.copy(TESTS / check, self.room / "tests" / check)
        shutil.copytree(TESTS / "citing", self.room / "tests" / "citing")

    def write(self, file, text):
        (self.room / file).parent.mkdir(parents=True, exist_ok=True)
        (self.room / file).write_text(text)

    def change(self, file, old, new):
        text = (self.room / file).read_text()
        self.assertIn(old, text)
        self.write(file, text.replace(old, new))

    def run_check(self, check):
        said = subprocess.run([sys.executable, self.room / "tests" / check], stdout=subprocess.PIPE, stderr=subprocess.STDOUT, check=False)
        return said.returncode, said.stdout.decode()

    def fails(self, words, check="statements.py"):
        status, said = self.run_check(check)
        self.assertEqual(status, 1, said)
        self.assertIn(words, said)


class Small(Room):
    def setUp(self):
        super().setUp()
        for file, text in SMALL.items():
            self.write(file, text)


class Statements(Small):
    def test_as_it_is(self):
        self.assertEqual(self.run_check("statements.py"), (0, "2 statements, 0 faults (low 2)\n"))

    def test_a_proof_that_is_deleted_or_has_no_clause(self):
        self.change(LOST, "never_lost l = refl\n", "")
        self.fails("NeverLost has no proof")
        self.change(LOST, "pub never_lost : NeverLost\n", "")
        self.fails("NeverLost has no proof")

    def test_a_proof_of_something_else(self):
        for kind in ("Unit", "AllWell", "⊥ → NeverLost", "NeverLost → Unit", "Unit {0}\n    × NeverLost"):
            self.write(LOST, SMALL[LOST].replace(": NeverLost", ": " + kind).replace("{NeverLost}", "{AllWell, NeverLost}"))
            self.fails("NeverLost has no proof")

    def test_a_proof_that_is_commented_out(self):
        proof = "pub never_lost : NeverLost\nnever_lost l = refl\n"
        for hidden in ("-- " + proof.replace("\nn", "\n-- n"), "{-\n%s-}\n" % proof, "{- {- -}\n%s-}\n" % proof, "{- -- -}\n{-\n%s" % proof):
            self.write(LOST, SMALL[LOST].replace(proof, hidden))
            self.fails("NeverLost has no proof")

    def test_a_proof_in_a_file_that_no_line_leads_to(self):
        for lib in ("pub mod Claims\n", "pub mod Claims\n-- mod Deep\n", "pub mod Claims\nmod Deeper\n"):
            self.write("crates/low/proofs/Lib.antt", lib)
            self.fails("NeverLost has no proof")
        self.write("crates/low/proofs/Lib.antt", SMALL["crates/low/proofs/Lib.antt"])
        self.write("crates/low/proofs/Deep.antt", "")
        self.fails("NeverLost has no proof")

    def test_a_proof_that_others_cannot_cite_or_that_is_none(self):
        for marks in ("never_lost", "axiom pub never_lost", "axiom never_lost"):
            self.write(LOST, SMALL[LOST].replace("pub never_lost", marks))
            self.fails("NeverLost has no proof")

    def test_a_proof_under_another_name(self):
        self.write(LOST, SMALL[LOST].replace("never_lost", "not_lost"))
        self.fails("NeverLost has no proof")

    def test_a_proof_that_assumes_something(self):
        self.change(LOST, "pub never_lost : NeverLost\nnever_lost l = refl\n",
                    "module _ (no : ⊥) where\n  pub never_lost : NeverLost\n  never_lost l = absurd no\n")
        self.fails("NeverLost has no proof")

    def test_the_name_of_something_else(self):
        own = "abbrev NeverLost : Type 0\nNeverLost = Unit\n\n"
        for line in ("use Rattle.high.specs.Claims.{NeverLost}", "use Rattle.low.specs.Claims.{AllWell as NeverLost}", "use other.*\n\n" + own,
                     "use Rattle.low.specs.Claims.{NeverLost}\n\n" + own, "-- use Rattle.low.specs.Claims.{NeverLost}"):
            self.write(LOST, SMALL[LOST].replace("use Rattle.low.specs.Claims.{NeverLost}", line))
            self.fails("NeverLost has no proof")

    def test_a_statement_that_is_deleted_or_commented_out_with_its_proof(self):
        self.write("crates/low/proofs/Deep/Lost.antt", "")
        statement = "abbrev pub NeverLost : Type 0\nNeverLost = (l : Line) → l 0 ≡ l 0\n"
        for left in ("", "{-\n%s-}\n" % statement, "-- " + statement.replace("\nN", "\n-- N")):
            self.write(CLAIMS, SMALL[CLAIMS].replace(statement, left))
            self.fails("docs/ENEMY.md: low/Claims.NeverLost is cited as a statement, and is none")

    def test_a_statement_that_is_renamed_in_specs_only(self):
        self.change(CLAIMS, "NeverLost", "NotLost")
        self.fails("NotLost has no proof")
        self.fails("low/Claims.NeverLost is cited as a statement, and is none")
        self.fails("low/Claims.NotLost is cited neither")

    def test_a_statement_in_other_forms(self):
        self.change(CLAIMS, "abbrev pub NeverLost : Type 0\n", "pub NeverLost :\n    Type 0\n")
        self.assertEqual(self.run_check("statements.py")[0], 0)
        self.write(LOST, "")
        self.fails("NeverLost has no proof")
        self.write(CLAIMS, SMALL[CLAIMS] + "\npub record Both : Type 0 where\n  pub well : AllWell\n")
        self.fails("Both has no proof")

    def test_a_statement_that_is_used_is_no_longer_one(self):
        self.write(CLAIMS, SMALL[CLAIMS] + "\nabbrev pub Twice : Type 0\nTwice = NeverLost × NeverLost\n")
        self.fails("low/Claims.NeverLost is cited as a statement, and is none")

    def test_a_definition_that_nothing_uses(self):
        self.write(KINDS, SMALL[KINDS] + "\nabbrev pub Spare : Type 0\nSpare = ℕ\n")
        self.fails("Spare has no proof")
        self.write(KINDS, SMALL[KINDS])
        self.write(CLAIMS, SMALL[CLAIMS] + "\nabbrev pub LostBy : Line → Type 0\nLostBy l = l 0 ≡ l 1\n")
        self.fails("nothing uses LostBy, and it is no statement")
        self.change(LOST, "{NeverLost}", "{NeverLost, LostBy}")
        self.fails("nothing uses LostBy")
        self.change(LOST, "never_lost l = refl", "never_lost l = refl\n\npub lost_by : (l : Line) → LostBy l\nlost_by l = refl")
        self.assertEqual(self.run_check("statements.py")[0], 0)

    def test_a_statement_that_no_document_cites(self):
        self.write("docs/ENEMY.md", SMALL["docs/ENEMY.md"].replace("`NeverLost`", "NeverLost"))
        self.fails("low/Claims.NeverLost is cited neither in the column Promise")
        self.write("docs/ENEMY.md", SMALL["docs/ENEMY.md"].replace("| `NeverLost` | To lose", "| | To lose `low/Claims.NeverLost`,"))
        self.fails("low/Claims.NeverLost is cited neither in the column Promise")
        self.write("docs/ENEMY.md", "")
        self.change("docs/CLAIMS.md", "`low/Claims.AllWell`", "`low/Claims.AllWell`, `NeverLost`")
        self.assertEqual(self.run_check("statements.py")[0], 0)

    def test_a_definition_in_the_column_of_statements(self):
        self.change("docs/CLAIMS.md", "`low/Claims.AllWell`", "`low/Claims.AllWell`, `low/Kinds.Line`")
        self.fails("docs/CLAIMS.md: low/Kinds.Line is cited as a statement, and is none")


class Names(Small):
    def cites(self, names):
        self.write("README.md", names)
        return self.run_check("names.py")

    def test_what_is_declared(self):
        declared = ["low/Kinds", "low/Kinds.Line", "low/Kinds.Pair", "low/Kinds.Pair.left", "low/Kinds.right", "low/Kinds.Side.above", "low/Kinds.below",
                    "low/Kinds.side", "low/Claims.AllWell", "low::first", "low::WIDTH", "low::half", "low::half::Box", "low::half::Box::s",
                    "low::half::Box::lower", "low::half::Side::Above", "low::half::Side::Below", "low!wrong"]
        status, said = self.cites(". ".join("`%s`" % name for name in declared))
        self.assertEqual((status, said), (0, "25 names cited, 0 missing, 0 files cite proofs/\n"))

    def test_what_is_not(self):
        for name in ("low/Kinds.Old", "low/Kinds.Older", "low/Kinds.Gone", "low/Kinds.ℕ", "low/Kinds.inner", "low/Kinds.inside", "low/Kinds.l",
                     "low/Kinds.Line.left", "low/Kinds.Side.left", "low/Gone", "gone/Kinds.Line", "low::old", "low::older", "low::kept", "low::other",
                     "low::xs", "low::quarter", "low::quarter::lost", "low::lower", "low::half::lower", "low::half::Side::lower", "low::half::Gone",
                     "gone::first", "low!gone"):
            status, said = self.cites("`%s`" % name)
            self.assertEqual((status, said.split("\n")[0]), (1, "README.md: `%s` is nowhere" % name))

    def test_short_names_are_of_the_file_or_the_path_before(self):
        self.assertEqual(self.cites("`low/Kinds.Line`, `Pair` and `side`; `low::half::Box::lower`, `s`, `Side::Above`, `low`, `anything`")[0], 0)
        for names, gone in (("`low/Kinds.Line`, `AllWell`", "low/Kinds.AllWell"), ("`low/Kinds.Line` and `Old`", "low/Kinds.Old"),
                            ("`low::half::Box::lower`,\n`upper`", "low::half::Box::upper"), ("`low::first`, `old`", "low::old")):
            self.assertEqual(self.cites(names)[1].split("\n")[0], "README.md: `%s` is nowhere" % gone)


    def test_a_name_that_stands_alone_is_declared_in_some_crate(self):
        for name, there in (("Pair.left", True), ("Box::lower", True), ("Gone", False), ("Older", False), ("Line.left", False), ("set", True)):
            self.write("docs/ENEMY.md", SMALL["docs/ENEMY.md"].replace("`Pair`", "`%s`" % name))
            status, said = self.run_check("names.py")
            self.assertEqual((status == 0, "docs/ENEMY.md: `%s` is nowhere" % name in said), (there, not there))


class Real(Room):
    """The crates and documents as they are: the six of which deleted proofs once went unnoticed, and every statement's name."""
    SIX = {"Continued": "claims/proofs/Demands.antt", "PrintsFinished": "claims/proofs/Program.antt", "NeverRefused": "claims/proofs/Reached.antt",
           "RulesMean": "claims/proofs/Rules.antt", "WrittenBack": "writing/proofs/Claims.antt", "DoublesExact": "boxes/proofs/Middles.antt"}

    def setUp(self):
        super().setUp()
        for folder in sorted(ROOT.glob("crates/*")):
            (self.room / "crates" / folder.name).mkdir(parents=True)
            for part in ("specs", "proofs", "src"):
                if (folder / part).is_dir():
                    shutil.copytree(folder / part, self.room / "crates" / folder.name / part)
        shutil.copytree(ROOT / "docs", self.room / "docs")

    def proof(self, name):
        """The file of a proof, its text, and the proof's own lines in it: the signature and its clauses."""
        file = "crates/" + self.SIX[name]
        text, small = (self.room / file).read_text(), re.sub(r"(?<!^)([A-Z])", r"_\1", name).lower()
        lines = re.search(r"(?m)^pub %s : %s\n(?:(?:unfolding |%s |[ ]).*\n|\n(?=%s ))+" % (small, name, small, small), text)
        return file, text, lines.group()

    def test_deleted_weakened_and_commented_out(self):
        self.assertEqual(self.run_check("statements.py")[0], 0)
        for name in self.SIX:
            file, text, lines = self.proof(name)
            for left in ("", lines.replace(": %s\n" % name, ": Unit {0}\n"), "{-\n%s-}\n" % lines, re.sub("(?m)^", "-- ", lines)):
                self.write(file, text.replace(lines, left))
                self.fails(": %s has no proof" % name)
            self.write(file, text)

    def test_a_file_of_proofs_that_is_left_out(self):
        for crate, file, name in (("claims", "Demands", "Continued"), ("writing", "Claims", "WrittenBack"), ("boxes", "Middles", "DoublesOnce")):
            self.change("crates/%s/proofs/Lib.antt" % crate, "mod %s\n" % file, "mod Nothing\n")
            self.fails(": %s has no proof" % name)

    def test_a_statement_that_is_deleted_with_its_proof(self):
        for name, proofs in self.SIX.items():
            file, text, lines = self.proof(name)
            self.write(file, text.replace(lines, ""))
            for specs in (self.room / "crates" / proofs.split("/")[0] / "specs").glob("*.antt"):
                specs.write_text(re.sub(r"(?m)^abbrev pub %s : Type 0\n(?:%s .*\n)(?: .*\n)*" % (name, name), "", specs.read_text()))
            self.fails(".%s is cited as a statement, and is none" % name)


if __name__ == "__main__":
    unittest.main()
