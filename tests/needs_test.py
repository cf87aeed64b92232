#!/usr/bin/env python3
"""Tests of tests/needs on made-up machines: a folder of stand-ins for uname, id, apt-get, sudo and the compilers is all that is on the path.

    python3 tests/needs_test.py
"""

import os
import shutil
import subprocess
import sys
import tempfile
import unittest

sys.dont_write_bytecode = True
NEEDS = os.path.join(os.path.dirname(os.path.abspath(__file__)), "needs")
REAL = ["sh", "env", "mktemp", "rm", "tail", "cat", "chmod"]  # what the script and the stand-ins use themselves

CROSS = "gcc-x86-64-linux-gnu libc6-dev-amd64-cross"
# says for which machine it links, and fails like a compiler that lacks the C library's headers
COMPILER = """case $1 in -dumpmachine) echo %s-linux-gnu ;; *) exit %d ;; esac"""
# notes its words; an install brings the stand-in that is kept ready
APT_GET = """echo "$@" >>"$NOTES"
case $1 in install) chmod +x "$READY"/* && for f in "$READY"/*; do cat "$f" >"$BIN/${f##*/}"; chmod +x "$BIN/${f##*/}"; done ;; esac"""
APT_GET_FAILS = """echo "E: no network" >&2; exit 100"""
SUDO = """echo "sudo $1" >>"$NOTES"; shift; exec "$@" """


class Machine:
    """A made-up machine; afterwards what was installed is in `notes`."""

    def __init__(self, folder, kind, user="0"):
        self.bin, self.ready, self.notes = (os.path.join(folder, name) for name in ("bin", "ready", "notes"))
        os.mkdir(self.bin)
        os.mkdir(self.ready)
        for name in REAL:
            os.symlink(shutil.which(name), os.path.join(self.bin, name))
        self.has("uname", "echo " + kind)
        self.has("id", "echo " + user)

    def has(self, name, script="exit 0", where=None):
        path = os.path.join(where or self.bin, name)
        with open(path, "w", encoding="ascii") as file:
            file.write("#!/bin/sh\n%s\n" % script)
        os.chmod(path, 0o755)

    def can_install(self, name, script="exit 0"):
        """apt-get is there, and brings this."""
        self.has("apt-get", APT_GET)
        self.has(name, script, self.ready)

    def needs(self, *words, **more):
        said = subprocess.run([NEEDS, *words], stdout=subprocess.PIPE, stderr=subprocess.PIPE, text=True, check=False,
                              env={"PATH": self.bin, "BIN": self.bin, "READY": self.ready, "NOTES": self.notes, **more})
        return said.returncode, said.stdout, said.stderr.splitlines()

    def installed(self):
        if not os.path.exists(self.notes):
            return []
        with open(self.notes, encoding="ascii") as file:
            return file.read().splitlines()


class Needs(unittest.TestCase):
    def machine(self, kind, user="0"):
        folder = tempfile.TemporaryDirectory()
        self.addCleanup(folder.cleanup)
        return Machine(folder.name, kind, user)

    def test_on_x86_64_the_machines_compiler_does(self):
        there = self.machine("x86_64")
        there.has("gcc", COMPILER % ("x86_64", 0))
        self.assertEqual(there.needs("--compiler"), (0, "gcc\n", []))
        self.assertEqual(there.installed(), [])

    def test_on_arm_the_cross_compiler_is_installed(self):
        there = self.machine("aarch64")
        there.has("cc", COMPILER % ("aarch64", 0))
        there.can_install("x86_64-linux-gnu-gcc", COMPILER % ("x86_64", 0))
        self.assertEqual(there.needs("--compiler"), (0, "x86_64-linux-gnu-gcc\n", ["tests/needs: installing " + CROSS]))
        self.assertEqual(there.installed(), ["update", "install -y --no-install-recommends " + CROSS])

    def test_a_compiler_without_the_c_library_is_not_enough(self):
        there = self.machine("aarch64")
        there.has("x86_64-linux-gnu-gcc", COMPILER % ("x86_64", 1))
        there.can_install("x86_64-linux-gnu-gcc", COMPILER % ("x86_64", 0))
        self.assertEqual(there.needs("compiler")[0], 0)
        self.assertEqual(there.installed()[-1], "install -y --no-install-recommends " + CROSS)

    def test_not_root_goes_through_sudo(self):
        there = self.machine("aarch64", user="1000")
        there.has("sudo", SUDO)
        there.can_install("x86_64-linux-gnu-gcc", COMPILER % ("x86_64", 0))
        self.assertEqual(there.needs("compiler")[0], 0)
        self.assertEqual(there.installed()[0], "sudo -n")

    def test_where_nothing_can_be_installed_one_line_says_what_to_install(self):
        for user, tools, why in (("1000", {"apt-get": APT_GET}, "not root, and no sudo here"), ("0", {}, "no apt-get here"),
                                 ("0", {"apt-get": APT_GET_FAILS}, "E: no network")):
            there = self.machine("aarch64", user)
            for name, script in tools.items():
                there.has(name, script)
            status, out, lines = there.needs("compiler", "cargo", "qemu-x86_64")
            self.assertEqual((status, out), (2, ""))
            self.assertEqual(lines[-1], "tests/needs: can't install, please do: apt-get install %s cargo qemu-user (%s)" % (CROSS, why))

    def test_an_install_that_brings_nothing_is_noticed(self):
        there = self.machine("aarch64")
        there.can_install("something-else")
        status, _, lines = there.needs("compiler")
        self.assertEqual((status, lines[-1]), (2, "tests/needs: compiler is still missing, though these were installed: " + CROSS))

    def test_a_compiler_named_by_the_caller_is_taken_or_refused(self):
        there = self.machine("aarch64")
        there.has("mine", COMPILER % ("x86_64", 0))
        there.has("other", COMPILER % ("aarch64", 0))
        self.assertEqual(there.needs("--compiler", CC="mine"), (0, "mine\n", []))
        self.assertEqual(there.needs("--compiler", CC="other"), (2, "", ["tests/needs: CC names other, which links no program for x86-64"]))

    def test_other_machines_and_words_are_refused(self):
        self.assertEqual(self.machine("riscv64").needs("compiler")[::2],
                         (2, ["tests/needs: this machine is riscv64, and the toolchain runs on x86_64 and aarch64"]))
        self.assertEqual(self.machine("x86_64").needs("rt")[::2], (2, ["tests/needs: the Rattle toolchain is missing: no rt on the path"]))
        self.assertEqual(self.machine("x86_64").needs("luck")[0], 2)
        self.assertEqual(self.machine("x86_64").needs()[0], 2)


if __name__ == "__main__":
    unittest.main()
