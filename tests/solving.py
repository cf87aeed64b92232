#!/usr/bin/env python3
"""Tests that neither ./solve nor the desk program is ever silent about what it could not do.

    python3 tests/solving.py            ./solve in a made-up folder, with stand-ins for the toolchain and the program: what it proves, when, and what it runs
    python3 tests/solving.py --proved   the proved program, by tools/start and by ./solve: every status, and inputs and outputs that fail
"""

import os
import pty
import shutil
import subprocess
import sys
import tempfile
import threading
import time
import unittest

sys.dont_write_bytecode = True
ROOT = os.path.dirname(os.path.dirname(os.path.abspath(__file__)))
LATE = 0.5  # seconds after which a late writer writes

# like rt, it starts on no folder; `rt run` takes its time, breaks if another one is at it, refuses a source that is wrong, and else links the source as a program and runs it
RT = """#!/bin/sh
[ ! -d /dev/stdin ] || { echo "rt: no start on such an input" >&2; exit 1; }
case $1 in
version) echo stand-in ;;
doc) echo "$KIT/START-HERE.md" ;;
run)
    echo run >>"$KIT/runs"
    mkdir "$KIT/busy" 2>/dev/null || { echo "two at once" >&2; touch "$KIT/broken"; exit 1; }
    sleep 0.5
    rmdir "$KIT/busy"
    ! grep -q wrong src/main.rt || { echo "not proved: wrong" >&2; exit 1; }
    mkdir -p out
    { echo '#!/bin/sh'; cat src/main.rt; } >out/solve
    chmod +x out/solve
    exec out/solve ;;
esac
"""
LOADER = """#!/bin/sh
shift 2
exec "$@"
"""


def written(path, text):
    os.makedirs(os.path.dirname(path), exist_ok=True)
    with open(path, "w") as out:
        out.write(text)
    os.chmod(path, 0o755)


def text_of(path):
    with open(path) as file:
        return file.read()


class Made:
    """A made-up folder with ./solve, one source, and a toolchain of stand-ins."""

    def __init__(self, where):
        self.kit, self.root = os.path.join(where, "kit"), os.path.join(where, "root")
        written(os.path.join(self.kit, "bin", "rt"), RT)
        written(os.path.join(self.kit, "toolchain", "lib", "ld-linux-x86-64.so.2"), LOADER)
        written(os.path.join(self.root, "crates.txt"), "solve:\n")
        for part in ("specs", "proofs"):
            written(os.path.join(self.root, "crates", "solve", part, "Some.antt"), "")
        for name in ("solve", "tools/start"):
            written(os.path.join(self.root, name), "")
            shutil.copy(os.path.join(ROOT, name), os.path.join(self.root, name))
        self.source("echo finished 1")

    def source(self, line):
        written(os.path.join(self.root, "crates", "solve", "src", "main.rt"), line + "\n")

    def start(self, given=subprocess.DEVNULL):
        setting = dict(os.environ, KIT=self.kit, PATH=os.path.join(self.kit, "bin") + ":" + os.environ["PATH"])
        return subprocess.Popen([os.path.join(self.root, "solve")], env=setting, stdin=given,
                                stdout=subprocess.PIPE, stderr=subprocess.PIPE, text=True)

    def solve(self, **how):
        """Status, standard output and standard error of one call."""
        run = self.start(**how)
        out, said = run.communicate(timeout=60)
        return run.returncode, out, said

    def proofs(self):
        path = os.path.join(self.kit, "runs")
        return len(text_of(path).splitlines()) if os.path.exists(path) else 0


class WhatIsRun(unittest.TestCase):
    def setUp(self):
        self.where = tempfile.mkdtemp()
        self.addCleanup(shutil.rmtree, self.where)
        self.made = Made(self.where)

    def test_four_at_once_prove_once(self):
        runs = [self.made.start() for _ in range(4)]
        ends = [(run.communicate(timeout=60)[0], run.returncode) for run in runs]
        self.assertEqual(ends, [("finished 1\n", 0)] * 4)
        self.assertEqual((self.made.proofs(), os.path.exists(os.path.join(self.made.kit, "broken"))), (1, False))

    def test_one_that_is_ended_leaves_its_prover_alone_until_it_is_done(self):
        ended = self.made.start()
        while not self.made.proofs():
            time.sleep(0.01)
        ended.kill()
        ended.wait(timeout=60)
        self.assertEqual(self.made.solve()[:2], (0, "finished 1\n"))
        self.assertFalse(os.path.exists(os.path.join(self.made.kit, "broken")))
        ended.communicate(timeout=60)

    def test_nothing_is_proved_again_until_a_source_changes(self):
        for _ in range(3):
            self.assertEqual(self.made.solve()[:2], (0, "finished 1\n"))
        self.assertEqual(self.made.proofs(), 1)
        self.made.source("echo spent 2")
        self.assertEqual((self.made.solve()[:2], self.made.proofs()), ((3, "spent 2\n"), 2))

    def test_what_is_not_proved_is_not_run(self):
        self.made.solve()
        self.made.source("wrong")
        for _ in range(2):
            status, out, said = self.made.solve()
            self.assertEqual((status, out), (2, ""))
            self.assertIn("not proved: wrong\nsolve: not proved, so not run\n", said)
        self.made.source("echo finished 1")
        self.assertEqual((self.made.solve()[:2], self.made.proofs()), ((0, "finished 1\n"), 3))

    def test_the_status_is_the_answer(self):
        answers = {"finished 3": 0, "refused 1 at 0": 1, "spent 3": 3, "full 3": 4, "": 5, "finished": 5, "done": 5}
        for answer, status in answers.items():
            self.made.source("echo " + answer)
            self.assertEqual(self.made.solve()[0], status, answer)

    def test_words_and_an_early_end_make_it_five(self):
        unwritten = "solve: not all of the answer could be written: No space left on device"
        cases = [("echo '%s' >&2" % unwritten, 5, unwritten), ("kill -9 $$", 5, "solve: the program was ended with status 137"),
                 ("echo 'emulator: warning' >&2", 0, "emulator: warning")]
        for line, status, words in cases:
            self.made.source("echo finished 3; " + line)
            found, _, said = self.made.solve()
            self.assertEqual((found, said.splitlines()[-1]), (status, words))

    def test_the_input_is_the_programs_alone(self):
        self.made.source("cat")
        folder = os.open(self.where, os.O_RDONLY)
        status, out, said = self.made.solve(given=folder)
        os.close(folder)
        self.assertEqual((status, out), (5, ""))
        self.assertIn("Is a directory", said)

    def test_what_an_earlier_proof_linked_is_not_taken_for_a_new_one(self):
        self.made.solve()
        self.made.source("wrong")
        self.assertEqual((self.made.solve()[0], os.path.exists(os.path.join(self.made.root, "crates", "solve", "out", "solve"))), (2, False))

    def test_a_program_that_cannot_be_started_is_not_run(self):
        os.remove(os.path.join(self.made.kit, "toolchain", "lib", "ld-linux-x86-64.so.2"))
        status, out, said = self.made.solve()
        self.assertEqual((status, out), (2, ""))
        self.assertIn("tools/start: no loader", said)


def example(name):
    return os.path.join(ROOT, "examples", name + ".sys")


def run(words, given=subprocess.DEVNULL, out=subprocess.PIPE, before=None):
    """Status, output and words of a command; `before` is what its process does first. A signal for a pipe that nobody reads any more is kept from
    tools/start, as ./solve keeps it from what it starts; the program itself takes no notice of it."""
    done = subprocess.run(words, stdin=given, stdout=out, stderr=subprocess.PIPE, timeout=300, preexec_fn=before, restore_signals=words[0].endswith("/solve"))
    return done.returncode, done.stdout, done.stderr.decode()


class Proved(unittest.TestCase):
    """Each case by ./solve, which gives a status, and by tools/start, which gives words alone."""

    @classmethod
    def setUpClass(cls):
        run([os.path.join(ROOT, "solve"), example("F")])  # the first call may have to prove, and says so

    def setUp(self):
        self.both = [[os.path.join(ROOT, "solve")], [os.path.join(ROOT, "tools", "start"), "solve"]]

    def fails(self, words, said, **how):
        """It says so, gives no answer, and ./solve ends with 5."""
        status, out, found = run(words, **how)
        self.assertIn(said, found)
        self.assertIn(out, (b"", None))
        self.assertEqual(status, 5 if words == self.both[0] else 0)

    def test_statuses(self):
        cases = [(example("F"), 0, b"finished 7 2 2 0\n"), (os.path.join(ROOT, "README.md"), 1, b"refused 2 at 0\n"),
                 (example("arc"), 4, b"full 5242 1593 1024 9\n")]
        many_visits = os.path.join(ROOT, "tests", "plain", "systems", "space-111-two.txt")
        with tempfile.TemporaryDirectory() as where:
            spent = os.path.join(where, "spent.sys")
            with open(spent, "wb") as file:
                subprocess.run([os.path.join(ROOT, "tools", "system"), "write", many_visits], stdout=file, check=True)
            for path, status, line in cases + [(spent, 3, b"spent 1000000 ")]:
                found, out, said = run(self.both[0] + [path])
                self.assertEqual((found, out[:len(line)], said), (status, line, ""))
                with open(path, "rb") as file:
                    self.assertEqual(run(self.both[1], given=file), (0, out, ""))

    def test_outputs_that_fail(self):
        for words in self.both:
            with open(example("arc"), "rb") as file, open("/dev/full", "wb") as full:
                self.fails(words, "solve: not all of the answer could be written", given=file, out=full)
            with open(example("arc"), "rb") as file:
                reader, writer = os.pipe()
                os.close(reader)
                self.fails(words, "solve: not all of the answer could be written", given=file, out=writer)
                os.close(writer)
            with open(example("arc"), "rb") as file:
                self.fails(words, "standard output is closed" if words == self.both[0] else "could be written: Bad file descriptor", given=file,
                           before=lambda: os.close(1))

    def test_inputs_that_fail(self):
        for words in self.both:
            folder = os.open(ROOT, os.O_RDONLY)
            self.fails(words, "solve: not all of the input could be read: Is a directory", given=folder)
            os.close(folder)
            self.fails(words, "standard input is closed" if words == self.both[0] else "could be read: Bad file descriptor", before=lambda: os.close(0))

    def test_an_input_that_does_not_wait_is_said_to_be_unread(self):
        for words in self.both:
            for ends in (os.pipe(), pty.openpty()[::-1]):
                reader, writer = ends
                os.set_blocking(reader, False)
                late = threading.Thread(target=lambda: (time.sleep(LATE), os.write(writer, b"late")))
                late.start()
                self.fails(words, "solve: not all of the input could be read: Resource temporarily unavailable", given=reader)
                late.join()
                os.close(reader)
                os.close(writer)

    def test_an_input_in_pieces_is_whole(self):
        with open(example("F"), "rb") as file:
            data = file.read()
        for words in self.both:
            reader, writer = os.pipe()

            def pieces():
                for byte in data:
                    os.write(writer, bytes([byte]))
                    time.sleep(0.01)
                os.close(writer)

            late = threading.Thread(target=pieces)
            late.start()
            self.assertEqual(run(words, given=reader)[:2], (0, b"finished 7 2 2 0\n2 1 0 0 0 0 1\n2 2 0 0 0 0 1\n"))
            late.join()
            os.close(reader)


if __name__ == "__main__":
    kind = Proved if "--proved" in sys.argv else WhatIsRun
    done = unittest.TextTestRunner().run(unittest.defaultTestLoader.loadTestsFromTestCase(kind))
    print("%d tests passed, %d failed" % (done.testsRun - len(done.failures) - len(done.errors), len(done.failures) + len(done.errors)))
    sys.exit(0 if done.wasSuccessful() else 1)
