"""The picture of the crates: it is the one of today's crates.txt, every crate is in it, and nothing overlaps."""

import os
import re
import tempfile

from checks import TOOLS, call
from readable import house

ROOT = os.path.dirname(TOOLS)
GAP = 20.0
SMALL = "# one\na: # first\n# two\nb: a # second\nc: a b # third\n"


def content(*path):
    with open(os.path.join(ROOT, *path), encoding="utf-8") as file:
        return file.read()


def drawn(text):
    """Exit code, picture and message for another crates.txt."""
    with tempfile.NamedTemporaryFile("w", suffix=".txt", encoding="utf-8") as file:
        file.write(text)
        file.flush()
        code, out, error = call("house", file.name)
    return code, out.decode("utf-8"), error


def test_fresh(checks):
    code, out, error = call("house")
    checks.same("tools/house", (code, error), (0, ""))
    checks.true("docs/house.svg is stale: tools/house > docs/house.svg", out.decode("utf-8") == content("docs", "house.svg"))


def test_complete(checks):
    crates, picture = house.read(content("crates.txt")), content("docs", "house.svg")
    there = {name for name in os.listdir(os.path.join(ROOT, "crates")) if os.path.isdir(os.path.join(ROOT, "crates", name))}
    checks.same("crates in the picture", set(crates), there)
    texts = re.findall(r"<text[^>]*>([^<]*)</text>", picture)
    for crate in crates.values():
        for words in (crate.name, crate.subject, crate.layer):
            checks.true("%s: %s is not in the picture" % (crate.name, words), words in texts)
    checks.same("heads of arrows", picture.count("l-4,-8 h8 z"), len(house.arrows(crates)))


def test_arrows(checks):
    """The arrows imply everything that crates.txt says, and none of them is implied by the others."""
    crates = house.read(content("crates.txt"))
    kept = house.arrows(crates)

    def only(chosen):
        return {name: crate._replace(needs=[low for up, low in chosen if up == name]) for name, crate in crates.items()}

    for name in crates:
        checks.same("below " + name, house.below(only(kept), name), house.below(crates, name))
    for arrow in kept:
        rest = only([other for other in kept if other != arrow])
        checks.true("implied: %s to %s" % arrow, arrow[1] not in house.below(rest, arrow[0]))


def test_room(checks):
    """In each row boxes and passing arrows keep their distance."""
    crates = house.read(content("crates.txt"))
    by_row, _ = house.items(crates, lambda crate: 10.0 * len(crate.name), 8)
    by_row = house.order(by_row)
    house.place(by_row, GAP)
    for row in by_row:
        for one, other in zip(row, row[1:]):
            checks.true("room in a row", other.x - one.x >= (one.width + other.width) / 2 + GAP - 1e-6)


def test_messages(checks):
    code, out, error = drawn(SMALL)
    checks.same("a small house", (code, error, out.count("l-4,-8 h8 z")), (0, "", 2))
    checks.same("no subject", drawn("# one\na:\n"), (1, "", "crates.txt, line 2: a has no subject\n"))
    checks.same("no layer", drawn("a: # first\n"), (1, "", "crates.txt, line 1: a has no layer\n"))
    checks.same("upwards", drawn("# one\na: b # first\n# two\nb: # second\n"),
                (1, "", "crates.txt: a stands on b, which is not below it\n"))
    checks.same("usage", call("house", "a", "b"), (2, b"", "usage: tools/house [CRATES]\n"))
    checks.same("a missing file", call("house", "none.txt")[::2], (1, "can't read none.txt: No such file or directory\n"))


TESTS = [test_fresh, test_complete, test_arrows, test_room, test_messages]
