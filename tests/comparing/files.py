"""The desk program: one start of each program for each system file."""

import os
import tempfile
from concurrent.futures import ThreadPoolExecutor

from .programs import REFERENCE, Difference, flipped, line_of, output, reference, save


def compare(program, name, data, spoil=False):
    """Compares what both programs print for one file."""
    expected, found = output([REFERENCE, "solve"], data), output(program, data)
    if spoil:
        found = flipped(found)
    if expected != found:
        line, wanted, got = line_of(expected, found)
        path = save(name, data)
        raise Difference("%s, line %d:\n  expected %s\n  found    %s\n  its input is in %s"
                         % (name, line + 1, wanted, got, path))


def contents(folder, name):
    with open(os.path.join(folder, name), "rb") as file:
        return file.read()


def chosen(names, tireless):
    """All files but those beyond so many that spend the million visits, which take seconds each."""
    slow = [name for name in names if name.endswith("-tireless.system")]
    return [name for name in names if name not in set(slow[tireless:])]


def generated(program, seed, count, tireless, spoil=False):
    """The seeded files of all kinds; answers how many were compared."""
    with tempfile.TemporaryDirectory() as folder:
        reference("generate", seed, count, folder)
        names = chosen(sorted(os.listdir(folder)), tireless)

        def one(name):
            compare(program, "seed-%d-%s" % (seed, name), contents(folder, name),
                    spoil and name == names[-1])

        pool = ThreadPoolExecutor(os.cpu_count())
        try:
            for _ in pool.map(one, names):
                pass
        finally:  # at a difference the other files are left
            pool.shutdown(cancel_futures=True)
    return len(names)
