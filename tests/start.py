"""How a proved program is built, where that is still to be done, and started: by the words that tools/start gives."""

import fcntl
import os
import re
import subprocess
import sys

ROOT = os.path.dirname(os.path.dirname(os.path.abspath(__file__)))
RUNS = re.compile(r"(?m)^rt: running out/")  # what rt says once the program is proved and linked



class Unbuilt(Exception):
    """A program that is not there; the text says why, and what makes it."""


def build(names):
    """Proves, compiles and links the programs of these names, where something below them has changed since. `rt run` does that, and then runs the program,
    here on no input: that it runs it shows that it was proved and linked."""
    for name in names:
        folder = os.path.join(ROOT, "crates", name)
        if not os.path.exists(os.path.join(folder, "out", name)):
            print("building %s: what is not proved yet below it comes first, which may take some minutes" % name, file=sys.stderr, flush=True)
        with open(os.path.join(ROOT, "crates.txt")) as lock:
            fcntl.flock(lock, fcntl.LOCK_EX)  # that of ./solve: one at a time
            try:
                said = subprocess.run(["rt", "run"], cwd=folder, stdin=subprocess.DEVNULL, stdout=subprocess.DEVNULL, stderr=subprocess.PIPE, text=True)
            except FileNotFoundError:
                raise Unbuilt("the Rattle toolchain is missing: no rt on the path") from None
        if not RUNS.search(said.stderr):
            raise Unbuilt("%s`rt run` in crates/%s built no program" % (said.stderr, name))


def words(name):
    """The command that starts the proved program of this name."""
    said = subprocess.run([os.path.join(ROOT, "tools", "start"), "--words", name], stdout=subprocess.PIPE, stderr=subprocess.PIPE)
    if said.returncode != 0:
        raise Unbuilt(said.stderr.decode().strip())
    return said.stdout.decode().splitlines()


def environment():
    """This process's environment without settings of the emulator."""
    return {name: value for name, value in os.environ.items() if not name.startswith("QEMU_")}
