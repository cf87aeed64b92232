"""Counting of checks, and calls of the tools as a user makes them."""

import os
import subprocess
import sys

TESTS = os.path.dirname(os.path.abspath(__file__))
TOOLS = os.path.dirname(TESTS)
EXAMPLES = os.path.join(os.path.dirname(TOOLS), "examples")


class Checks:
    def __init__(self):
        self.passed = 0
        self.failed = 0

    def same(self, what, found, expected):
        self.true("%s\n  found    %r\n  expected %r" % (what, found, expected), found == expected)

    def true(self, what, holds):
        if holds:
            self.passed += 1
        else:
            self.failed += 1
            print("FAILED " + what)


def call(tool, *arguments, data=b""):
    """Exit code, standard output and standard error of one call."""
    done = subprocess.run([sys.executable, os.path.join(TOOLS, tool), *arguments], input=data,
                          stdout=subprocess.PIPE, stderr=subprocess.PIPE, check=False)
    return done.returncode, done.stdout, done.stderr.decode("utf-8")


def example(name):
    with open(os.path.join(EXAMPLES, name), "rb") as file:
        return file.read()
