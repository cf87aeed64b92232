#!/usr/bin/env python3
"""Tests the readable-text tools and the pictures.

    python3 tools/tests/run.py [WORD ..]

With the words that start the desk program, as `tools/start solve`, its answers for the examples and for the
refused files are compared too. The last line counts the checks; the exit code
is 0 if none failed.
"""

import os
import subprocess
import sys
import traceback

sys.dont_write_bytecode = True
HERE = os.path.dirname(os.path.abspath(__file__))
sys.path[:0] = [HERE, os.path.dirname(HERE)]

import test_draw
import test_file
import test_house
import test_sweep
import test_text
from checks import Checks, example


def test_program(checks, program):
    """The desk program says what the examples and the refused files say."""
    def answer(data):
        return subprocess.run(program, input=data, stdout=subprocess.PIPE,
                              check=False).stdout.decode("ascii", "replace")

    for name, expected in test_draw.ANSWERS.items():
        checks.same("desk program on " + name, answer(example(name + ".sys")), expected)
    for name, first in test_draw.STOPPED.items():
        lines = answer(example(name + ".sys")).split("\n")
        checks.same("first line of the desk program on " + name, lines[0], first)
        checks.same("boxes of the desk program on " + name, len(lines) - 2, int(first.split()[3]))
    for what, data, number, offset in test_file.REFUSED:
        checks.same("desk program on " + what, answer(data),
                    "refused %d at %d\n" % (number, offset))


def run(checks, name, tests):
    """Runs the tests of one part; a test that breaks off counts as failed."""
    before = checks.passed + checks.failed
    for test in tests:
        try:
            test(checks)
        except Exception:  # whatever it is, the count below has to be printed
            checks.true("%s broke off\n%s" % (test.__name__, traceback.format_exc()), False)
    return "%s %d" % (name, checks.passed + checks.failed - before)


def main(arguments):
    checks = Checks()
    parts = [run(checks, "text", test_text.TESTS), run(checks, "file", test_file.TESTS),
             run(checks, "sweep", test_sweep.TESTS), run(checks, "draw", test_draw.TESTS),
             run(checks, "house", test_house.TESTS)]
    if arguments:
        program = [os.path.abspath(arguments[0])] + arguments[1:]

        def test_given(counted):
            test_program(counted, program)

        parts.append(run(checks, "desk program", [test_given]))
    print("%d checks passed, %d failed (%s)" % (checks.passed, checks.failed, ", ".join(parts)))
    return 1 if checks.failed else 0


if __name__ == "__main__":
    sys.exit(main(sys.argv[1:]))
