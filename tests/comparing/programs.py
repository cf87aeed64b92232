"""The two programs, run on one input, and what is done at the first difference."""

import os
import subprocess

import start

PACKAGE = os.path.join(start.ROOT, "tests", "reference")
REFERENCE = os.path.join(PACKAGE, "target", "release", "reference")
SAVED = os.path.join(start.ROOT, "target", "compare")


class Difference(Exception):
    """The two programs differ; the text says where, and where the input is."""


def build_reference():
    """Builds the independent program, or sees that it is built."""
    try:
        said = subprocess.run(["cargo", "build", "--offline", "--release", "--quiet", "--manifest-path",
                               os.path.join(PACKAGE, "Cargo.toml")])
    except FileNotFoundError:
        raise start.Unbuilt("cargo is missing, which builds the independent program") from None
    if said.returncode != 0:
        raise start.Unbuilt("cargo did not build the independent program")


def output(words, data=b""):
    """What a program prints; ending with a status counts as printing that."""
    run = subprocess.run(words, input=data, stdout=subprocess.PIPE, check=False,
                         env=start.environment())
    return run.stdout + (b"" if run.returncode == 0 else b"status %d\n" % run.returncode)


def reference(*words, data=b""):
    """What the independent program prints; it must end well."""
    run = subprocess.run([REFERENCE] + [str(word) for word in words], input=data,
                         stdout=subprocess.PIPE, check=True)
    return run.stdout


def flipped(answer):
    """The answer with one bit of its last digit or letter changed."""
    return answer[:-2] + bytes([answer[-2] ^ 1]) + answer[-1:]


def save(name, data):
    """Keeps an input for a closer look, and answers its path."""
    os.makedirs(SAVED, exist_ok=True)
    path = os.path.join(SAVED, name)
    with open(path, "wb") as file:
        file.write(data)
    return os.path.relpath(path, start.ROOT)


def line_of(expected, found):
    """The first line that differs, from 0, and both forms of it."""
    expected, found = expected.split(b"\n"), found.split(b"\n")
    for number in range(max(len(expected), len(found))):
        pair = [lines[number] if number < len(lines) else b"(no line)"
                for lines in (expected, found)]
        if pair[0] != pair[1]:
            return number, pair[0].decode("ascii", "replace"), pair[1].decode("ascii", "replace")
    raise ValueError("no line differs")
