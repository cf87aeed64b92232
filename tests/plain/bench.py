#!/usr/bin/env python3
"""Compares the desk program with the same search in plain C, over whole runs.

    tests/plain/bench.py [--counter NAME] [--only TEXT] [PROGRAM]

PROGRAM is the desk program, that of this repository if left out. search.c is built with
-O3, and both read each system of systems/ and of examples/. Printed are, for each
system, the visits, the instructions that each program executed from its start to
its end, the C program's beside the proved one's, and their ratio; on an x86-64
machine also the seconds, the least of five runs. What the two print has to be
the same. The exit code is 0 then, 1 if something differs, 2 if a tool is missing.
tests/needs installs the compilers and the emulator, or says what to install;
the desk program is proved and linked first, where that is still to be done.

Instructions are counted by the first of these that works, or by the one named:
qemu      Debian's qemu-user, with the plugin count.c
valgrind  its tool callgrind; on an x86-64 machine only
perf      the processor's own count; on an x86-64 machine only

qemu and valgrind count a repeated string instruction once for every byte, a
processor counts it once. So the C library is told, for both programs, to clear
and copy memory without them.
"""

import argparse
import os
import platform
import re
import shutil
import subprocess
import sys
import tempfile
import time

sys.dont_write_bytecode = True  # leaves nothing behind beside the tools

HERE = os.path.dirname(os.path.abspath(__file__))
ROOT = os.path.dirname(os.path.dirname(HERE))
sys.path[:0] = [os.path.join(ROOT, "tools"), os.path.join(ROOT, "tests")]

import start
from readable.system_file import to_bytes
from readable.system_text import from_text

NATIVE = platform.machine() in ("x86_64", "AMD64")  # the programs are for x86-64
PLAIN_MEMORY = ":".join("glibc.cpu.x86_rep_%s_threshold=1000000000" % x for x in ("stosb", "movsb"))


class Missing(Exception):
    pass


def needed(*words):
    """What tests/needs prints, once all of it is there; its one line where something can't be installed."""
    said = subprocess.run([os.path.join(ROOT, "tests", "needs"), *words], capture_output=True, text=True)
    if said.returncode:
        raise Missing((said.stderr.strip().splitlines() or ["tests/needs failed"])[-1])
    sys.stderr.write(said.stderr)
    return said.stdout.strip()


def installed(name):
    if not shutil.which(name):
        raise Missing("to count by %s: it is not installed" % name)
    return name


def built(compiler, words, source, to):
    done = subprocess.run([compiler, *words, "-o", to, os.path.join(HERE, source)], capture_output=True, text=True)
    if done.returncode:
        raise Missing("%s does not build %s: %s" % (compiler, source, done.stderr.strip()))
    return to


def loader():
    """The toolchain's own loader and C library, if it is here: both programs run under it."""
    if shutil.which("rt"):
        guide = subprocess.run(["rt", "doc"], capture_output=True, text=True).stdout.strip()
        there = os.path.join(os.path.dirname(guide), "toolchain", "lib")
        if os.path.exists(os.path.join(there, "ld-linux-x86-64.so.2")):
            return [os.path.join(there, "ld-linux-x86-64.so.2"), "--library-path", there]
    if NATIVE:
        return []
    raise Missing("an x86-64 loader and C library: no toolchain (rt) on the path")


def by_qemu(folder):
    needed("qemu-x86_64", "own-compiler")
    words = ["-O2", "-shared", "-fPIC", "-Wl,--unresolved-symbols=ignore-all"]
    plugin = built("cc" if shutil.which("cc") else "gcc", words, "count.c", os.path.join(folder, "count.so"))
    return ["qemu-x86_64", "-E", "GLIBC_TUNABLES=" + PLAIN_MEMORY, "-plugin", plugin], r"instructions (\d+)", {}


def by_valgrind(folder):
    words = [installed("valgrind"), "--tool=callgrind", "--callgrind-out-file=/dev/null"]
    return words, r"Collected *: *(\d+)", {"GLIBC_TUNABLES": PLAIN_MEMORY}


def by_perf(folder):
    words = [installed("perf"), "stat", "-x,", "-e", "instructions:u"]
    return words, r"(?m)^(\d+),[^,]*,instructions", {}


COUNTERS = {"qemu": by_qemu, "valgrind": by_valgrind, "perf": by_perf}


class Counter:
    """Runs a program on a system: what it printed, and how many instructions it executed."""

    def __init__(self, name, folder, under):
        if name != "qemu" and not NATIVE:
            raise Missing("%s counts instructions of this machine's programs, and the desk program is for x86-64" % name)
        self.name = name
        self.words, self.figure, self.also = COUNTERS[name](folder)
        self.under = under

    def __call__(self, program, system):
        done = subprocess.run([*self.words, *self.under, program], input=system, capture_output=True, env={**os.environ, **self.also})
        found = re.search(self.figure, done.stderr.decode(errors="replace"))
        if not found:
            raise Missing("%s gives no count: %s" % (self.name, done.stderr.decode(errors="replace").strip()[-300:]))
        return done.stdout, int(found.group(1))


def counter(wanted, folder, under, sample):
    reasons = []
    for name in [wanted] if wanted else COUNTERS:
        try:
            made = Counter(name, folder, under)
            made(*sample)
            return made
        except Missing as reason:
            reasons.append(str(reason))
            print("bench.py: not by %s: %s" % (name, reason), file=sys.stderr)
    raise Missing("no way to count instructions:\n  " + "\n  ".join(reasons))


def seconds(under, program, system):
    least = None
    for _ in range(5):
        begin = time.perf_counter()
        subprocess.run([*under, program], input=system, stdout=subprocess.DEVNULL, stderr=subprocess.DEVNULL)
        taken = time.perf_counter() - begin
        least = taken if least is None else min(least, taken)
    return least


def systems(only):
    for folder in (os.path.join(ROOT, "examples"), os.path.join(HERE, "systems")):
        for name in sorted(os.listdir(folder)):
            if name.endswith(".txt") and only in name:
                with open(os.path.join(folder, name), encoding="utf-8") as text:
                    yield name[:-4], to_bytes(from_text(text.read()))


def desk_program(named):
    """The program named, or the one of this repository, built where that is still to be done."""
    if named is None:
        try:
            start.build(["solve"])
        except start.Unbuilt as reason:
            raise Missing(str(reason)) from None
        return os.path.join(ROOT, "crates", "solve", "out", "solve")
    if not os.path.exists(named):
        raise Missing("no program at %s" % named)
    return os.path.abspath(named)


def compare(arguments, folder):
    program = desk_program(arguments.program)
    under = loader()
    compiler = needed("--compiler")
    plain = built(compiler, ["-O3"], "search.c", os.path.join(folder, "search"))
    chosen = list(systems(arguments.only))
    if not chosen:
        raise Missing("no system has %r in its name" % arguments.only)
    count = counter(arguments.counter, folder, under, (plain, chosen[0][1]))
    print("instructions counted by %s; C built by %s -O3" % (count.name, compiler))
    print("%-16s %8s %14s %14s %6s%s" % ("system", "visits", "C", "proved", "ratio", "  seconds C, proved" if NATIVE else ""))
    same, highest = True, (0, "")
    for name, system in chosen:
        (expected, c), (answer, ours) = count(plain, system), count(program, system)
        line = "%-16s %8s %14d %14d %6.3f" % (name, expected.split()[1].decode(), c, ours, ours / c)
        if NATIVE:
            line += "  %8.4f %8.4f" % (seconds(under, plain, system), seconds(under, program, system))
        if answer != expected:
            line, same = line + "  THE ANSWERS DIFFER", False
        print(line, flush=True)
        highest = max(highest, (ours / c, name))
    print("highest ratio %.3f, %s" % highest)
    return 0 if same else 1


def main():
    parser = argparse.ArgumentParser(description=__doc__, formatter_class=argparse.RawDescriptionHelpFormatter)
    parser.add_argument("program", nargs="?")
    parser.add_argument("--counter", choices=list(COUNTERS))
    parser.add_argument("--only", default="", metavar="TEXT")
    with tempfile.TemporaryDirectory() as folder:
        try:
            return compare(parser.parse_args(), folder)
        except Missing as reason:
            print("bench.py: missing: %s" % reason, file=sys.stderr)
            return 2


if __name__ == "__main__":
    sys.exit(main())
