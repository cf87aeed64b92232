"""Pictures: well-formed, with the right boxes in them, and the wrong inputs."""

import os
import tempfile
import xml.etree.ElementTree as Tree

from checks import EXAMPLES, call, example
from readable.picture import picture
from readable.solve_result import ResultError, read_result
from readable.svg import COLOURS
from readable.system_file import from_bytes, to_bytes
from readable.system_text import from_text

# What the desk program prints for the examples.
ANSWERS = {
    "F": "finished 7 2 2 0\n2 1 0 0 0 0 1\n2 2 0 0 0 0 1\n",
    "G": "finished 9 4 1 0\n4 15 0 0 0 0 2\n",
    "circle": "finished 67 31 3 0\n6 44 6 45 0 0 1\n6 45 6 44 0 0 1\n6 45 6 45 0 0 1\n",
    "probes": "finished 109 51 4 0\n8 118 8 193 0 0 1\n8 118 8 194 0 0 1\n8 134 8 95 0 0 1\n"
              "8 134 8 96 0 0 1\n",
}
# The first line where it stops before the search ends: its list has room for 1,024 boxes, its budget is 1,000,000 visits.
STOPPED = {"arc": "full 5242 1593 1024 9", "near": "spent 1000000 499995 0 11"}
SPENT = "spent 30 14 0 3\n"
SPENT_WAITING = SPENT + "waiting 2 3 1 1 0 0\nwaiting 2 2 2 3 0 0\nwaiting 4 11 4 11 0 0\n"
FULL = "full 5 1 1 2\n2 1 0 0 0 0 1\n"


class Drawn:
    """A picture read back as XML; reading it fails if it is not well-formed."""

    def __init__(self, svg):
        self.root = Tree.fromstring(svg)
        self.words = [element.text for element in self.root.iter() if element.tag.endswith("text")]

    def boxes(self, fill):
        """The rectangles of one colour, without the sample in the key."""
        found = [element for element in self.root.iter()
                 if element.tag.endswith("rect") and element.get("fill") == fill]
        return [element for element in found
                if (element.get("width"), element.get("height")) != ("16", "16")]

    def says(self, words):
        return any(words in text for text in self.words)


def drawn(system, result):
    return Drawn(picture("name.sys", system, read_result(result, system.depths)))


def test_examples(checks):
    for name, answer in ANSWERS.items():
        checks.same("text of " + name, call("system", "write", os.path.join(
            EXAMPLES, name + ".txt")), (0, example(name + ".sys"), ""))
        code, shown, _ = call("system", "show", os.path.join(EXAMPLES, name + ".sys"))
        checks.same("show " + name, code, 0)
        checks.same("show and write " + name, call("system", "write", "-", data=shown),
                    (0, example(name + ".sys"), ""))
        code, svg, error = call("draw", os.path.join(EXAMPLES, name + ".sys"),
                                data=answer.encode())
        checks.same("draw " + name, (code, error), (0, ""))
        found = Drawn(svg)
        checks.true("caption of " + name, found.says(answer.split("\n")[0]))
        checks.true("whole list of " + name, not found.says("not whole"))
    checks.same("the bytes of F", example("F.sys"), bytes.fromhex(
        "08 00 01 00 01 01 01 00 00 02 00 00 0F 00 02 00 01 00 00 00 FF FF FF FF "
        "01 00 00 02 00 00 00 00 00 03 00"))
    with open(os.path.join(EXAMPLES, "README.md"), encoding="utf-8") as file:
        readme = file.read()
    for name, answer in ANSWERS.items():
        checks.true("answer of %s in README.md" % name, "```\n" + answer + "```" in readme)
    for name, first in STOPPED.items():
        checks.true("first line of %s in README.md" % name, "```\n" + first + "\n" in readme)


def test_boxes(checks):
    found = drawn(from_bytes(example("F.sys")), ANSWERS["F"])
    spots = [(float(box.get("x")), float(box.get("width"))) for box in found.boxes(COLOURS[1])]
    checks.same("F's boxes", spots, [(76 + 728 * 0.25, 728 * 0.25), (76 + 728 * 0.5, 728 * 0.25)])
    found = drawn(from_bytes(example("G.sys")), ANSWERS["G"])
    checks.same("G's mark", (len(found.boxes(COLOURS[1])), len(found.boxes(COLOURS[2]))), (0, 1))
    checks.true("G's polynomial", found.says("1000000000 x\u2076 \u2212 1000000000 = 0"))
    system = from_text("depths 1 2\nx - y\n")
    found = drawn(system, "finished 9 0 2 0\n1 0 1 1 0 0 1\n1 1 2 0 0 0 2\n")
    spot = [float(found.boxes(COLOURS[1])[0].get(key)) for key in ("x", "width", "height")]
    checks.same("left and upper", spot, [76.0, 260.0, 260.0])
    upper, lower = (float(found.boxes(COLOURS[mark])[0].get("y")) for mark in (1, 2))
    checks.same("y goes up", lower - upper, 520 * 0.75)
    checks.true("two boxes apart", found.says("2 groups of kept boxes"))
    found = drawn(system, "finished 9 0 2 0\n1 0 1 1 0 0 1\n1 1 1 0 0 0 2\n")
    checks.true("two boxes that share a corner", found.says("1 group of kept boxes"))
    found = drawn(from_bytes(example("circle.sys")), ANSWERS["circle"])
    rings = [element for element in found.root.iter() if element.tag.endswith("circle")]
    checks.same("a small group is ringed", len(rings), 1)
    sizes = [box.get("width") for box in found.boxes(COLOURS[1])]
    checks.same("its boxes, and enlarged", sizes, ["8.12"] * 3 + ["25"] * 3)


def test_notes(checks):
    circle, first = from_bytes(example("circle.sys")), from_bytes(example("F.sys"))
    found = drawn(circle, SPENT)
    checks.true("spent", found.says("This list is not whole: the budget of visits is spent."))
    checks.true("spent, not drawn", found.says("3 boxes still wait (not drawn)"))
    found = drawn(circle, SPENT_WAITING)
    checks.true("spent, drawn", found.says("3 boxes still wait (drawn hatched)"))
    checks.same("waiting boxes", len(found.boxes("url(#waiting)")), 3)
    found = drawn(first, FULL)
    checks.true("full", found.says("This list is not whole: the list of kept boxes is full."))
    checks.true("nothing kept", drawn(first, "finished 1 1 0 0\n").says("No box was kept."))


def test_sizes(checks):
    """Many boxes, many places, long polynomials, and names that need escapes."""
    system = from_text("depths 10 10\nx - x\n")
    every = ["10 %d 10 %d 0 0 %d" % (i, (i * i) % 1024, 1 + i % 2) for i in range(1024)]
    found = drawn(system, "full 9999 1 1024 3\n" + "\n".join(every))
    checks.same("1024 boxes", sum(len(found.boxes(COLOURS[mark])) for mark in (1, 2)), 1024)
    terms = " ".join("- 999999999 x^%d y^%d" % (i, j) for i in range(7) for j in range(7))
    found = drawn(from_text("depths 1 1\n" + terms), "finished 1 1 0 0\n")
    checks.true("a long polynomial", found.says("(49 terms in all)"))
    svg = picture('<a & "b">\x01.sys', system, read_result("finished 1 1 0 0", [0, 0]))
    checks.true("a name with signs", Drawn(svg).says('<a & "b">?.sys'))


WRONG = [
    ("", "the result is empty; expected what the desk program prints"),
    ("refused 4 at 0\n", "the system was refused (refused 4 at 0): there is nothing to draw"),
    ("done 1 1 0 0\n", "line 1: expected 'finished', 'spent' or 'full' and four counts, "
     "found 'done 1 1 0 0'"),
    ("finished 1 1 0\n", "line 1: expected 'finished', 'spent' or 'full' and four counts, "
     "found 'finished 1 1 0'"),
    ("finished 1 -1 0 0\n", "line 1: expected 'finished', 'spent' or 'full' and four counts, "
     "found '-1'"),
    ("finished 1 1 0 2\n", "line 1: 'finished' does not go with waiting boxes"),
    ("full 1 1 0 0\n", "line 1: 'full' does not go with no waiting box"),
    ("finished 7 2 1 0\n7 1 0 0 0 0 1\n", "line 2: s1 is 7; the system's depth there is 6"),
    ("finished 7 2 1 0\n2 4 0 0 0 0 1\n", "line 2: k1 is 4; with s1 = 2 it is at most 3"),
    ("finished 7 2 1 0\n0 0 0 0 1 0 1\n", "line 2: s3 is 1; the system's depth there is 0"),
    ("finished 7 2 1 0\n2 1 0 0 0 0 3\n", "line 2: expected mark 1 or 2, found '3'"),
    ("finished 7 2 1 0\n2 x 0 0 0 0 1\n", "line 2: expected whole numbers, found 'x'"),
    ("finished 7 2 1 0\n2 1 0 0\n", "line 2: expected a kept box 's1 k1 s2 k2 s3 k3 mark' or, "
     "after these, 'waiting s1 k1 s2 k2 s3 k3', found '2 1 0 0'"),
    ("finished 7 2 2 0\n2 1 0 0 0 0 1\n", "the first line counts 2 kept, but lines of kept "
     "boxes: 1"),
    ("spent 7 2 0 2\nwaiting 2 1 0 0 0 0\n", "the first line counts 2 waiting, but lines of "
     "waiting boxes: 1"),
]


def test_wrong(checks):
    for text, message in WRONG:
        try:
            read_result(text, [6, 6])
            found = "no message"
        except ResultError as error:
            found = str(error)
        checks.same("result %r" % text, found, message)
    name = os.path.join(EXAMPLES, "F.sys")
    checks.same("a wrong result", call("draw", name, "-", data=b"refused 1 at 0\n"),
                (1, b"", WRONG[1][1].replace("4 at 0", "1 at 0") + "\n"))
    code, out, error = call("draw", os.path.join(EXAMPLES, "F.txt"), data=FULL.encode())
    checks.same("a text as system", (code, out, "refused 2 at 0" in error), (1, b"", True))
    code, out, error = call("draw", "no such file", "-")
    checks.same("a missing file", (code, out, error.split(":")[0]),
                (1, b"", "can't read no such file"))
    for arguments in ((), ("-", "-"), (name, "-", "-")):
        code, out, error = call("draw", *arguments)
        checks.same("usage", (code, out, error.split()[0]), (2, b"", "usage:"))


def test_files(checks):
    """A result from a file, and a system of three variables."""
    with tempfile.TemporaryDirectory() as folder:
        result, three = os.path.join(folder, "result"), os.path.join(folder, "three.sys")
        with open(result, "w", encoding="ascii") as file:
            file.write(ANSWERS["F"])
        with open(three, "wb") as file:
            file.write(to_bytes(from_text("depths 1 1 1\nx + y + z - 1\n")))
        name = os.path.join(EXAMPLES, "F.sys")
        checks.same("a result from a file", call("draw", name, result),
                    call("draw", name, data=ANSWERS["F"].encode()))
        checks.same("three variables", call("draw", three, data=b"finished 1 1 0 0\n"),
                    (1, b"", "the system has three variables; a picture has one or two\n"))


TESTS = [test_examples, test_boxes, test_notes, test_sizes, test_wrong, test_files]
