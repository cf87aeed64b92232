"""Readable text: what it may look like, what it gives, and every message."""

from checks import call, example
from messages import MESSAGES
from readable.polynomial_text import TextError
from readable.system_file import from_bytes, to_bytes
from readable.system_text import from_text, to_text

# Texts that mean the same system, the first in the tool's own form.
ALIKE = [
    ["variables x\ndegrees 1\ndepths 2\n2 x - 1\n", "depths 2\n2x-1", "depths 2\r\n-1+2*x\r\n",
     "# first\n\n  depths   02 # depth\n\n\t2 * x - 1 # last\n", "depths 2\nx + x - 1\n",
     "depths 2\n3x - x - 2 + 1\n", "variables t\ndepths 2\n+ 2 t - 1\n", "depths 2\rx*2 - 1\r",
     "depths 2\ndegrees 1\n-2 + 2x^1 + x^0\n", "depths 2\n2x - 1 + x^3 - x^3\n",
     "depths 2\n2x - 1 + 0 x^6\n", "variables long_name1\ndepths 2\n2long_name1 - 1\n"],
    ["variables x y\ndegrees 2 1\ndepths 3 4\n6 x^2 y - x y + y\n0\n",
     "depths 3 4\n2*3 x x y - xy + y\n0\n", "depths 3 4\n6yx^2 - yx + y\nx - x\n",
     "variables a b\ndepths 3 4\n6 a*b a - ab + b\n-0\n",
     "variables t1 t2\ndepths 3 4\n6 t1^2*t2 - t1 t2 + t2\n0 t1^2\n",
     "variables x x1\ndepths 3 4\n6x^2 x1 - x x1 + x1\n0\n"],
    ["variables x y z\ndegrees 3 3 3\ndepths 10 0 10\n-1000000000 x^3 y^3 z^3 + 1000000000\n",
     "depths 10 0 10\n1000000000 - 2 x^3 y^3*z^3*500000000",
     "degrees 3 3 3\ndepths 10 0 10\n2000000000 - 1000000000 xyzx^2y^2z^2 - 1000000000\n"],
    ["variables x\ndegrees 0\ndepths 0\n5\n", "depths 0\n5", "depths 0\n+5", "depths 0\n 05 \n"],
]


def test_meanings(checks):
    for texts in ALIKE:
        data = to_bytes(from_text(texts[0]))
        checks.same("own form", to_text(from_bytes(data)), texts[0])
        for text in texts[1:]:
            checks.same("meaning of %r" % text, to_bytes(from_text(text)), data)


def test_degrees(checks):
    for text, degrees in (("depths 1\nx^6 - 1", [6]), ("depths 1 1\nx^2\ny", [2, 1]),
                          ("degrees 4\ndepths 1\nx - x^2", [4]), ("depths 1 1 1\n7", [0, 0, 0])):
        checks.same("degrees of %r" % text, from_text(text).degrees, degrees)


def test_messages(checks):
    for text, message in MESSAGES:
        try:
            from_text(text)
            found = "no message"
        except TextError as error:
            found = str(error)
        checks.same("message for %r" % text, found, message)


def test_calls(checks):
    text = example("circle.txt")
    checks.same("write -", call("system", "write", "-", data=text), (0, example("circle.sys"), ""))
    checks.same("a byte order mark", call("system", "write", "-", data=b"\xef\xbb\xbf" + text),
                (0, example("circle.sys"), ""))
    checks.same("a wrong text", call("system", "write", "-", data=b"depths 2\nx +\n"),
                (1, b"", "line 2, column 4: expected a number or a variable, found the end of "
                 "the line\n"))
    checks.same("no text at all", call("system", "write", "-", data=b"depths 2\n\xff\n"),
                (1, b"", "line 2: expected readable text (UTF-8), found the byte 255\n"))
    code, out, error = call("system", "write", "no such file")
    checks.same("a missing file", (code, out, error.split(":")[0]),
                (1, b"", "can't read no such file"))
    for arguments in ((), ("write",), ("read", "-"), ("show", "-", "-")):
        code, out, error = call("system", *arguments)
        checks.same("usage", (code, out, error.split()[0]), (2, b"", "usage:"))


TESTS = [test_meanings, test_degrees, test_messages, test_calls]
