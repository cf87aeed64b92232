"""The system file: every refusal number at its offset, in the order of the rules."""

import struct

from checks import call
from readable.system_file import Refusal, from_bytes, to_bytes
from second_reader import refusal


def head(*values):
    return struct.pack("<HH", 8, 1) + bytes(values)


def term(i1, i2, i3, coefficient):
    return struct.pack("<BBBi", i1, i2, i3, coefficient)


def polynomial(number, *terms, kind=2, length=None):
    body = bytes([number]) + b"".join(terms)
    return struct.pack("<HH", len(body) if length is None else length, kind) + body


END = struct.pack("<HH", 0, 3)
ONE = head(1, 1, 1, 0, 0, 2, 0, 0)       # one variable, degree 1, one polynomial
TWO = head(2, 2, 2, 2, 0, 6, 6, 0)       # two variables, degrees 2 2, two polynomials
F = ONE + polynomial(1, term(0, 0, 0, -1), term(1, 0, 0, 2)) + END
BILLION = 1000000000

# What the file is, its bytes, refusal number, offset.
REFUSED = [
    ("empty", b"", 1, 0),
    ("three bytes", F[:3], 1, 0),
    ("head cut short", F[:11], 1, 0),
    ("head alone", ONE, 1, 12),
    ("head and a part of a header", ONE + b"\x0f\x00\x02", 1, 12),
    ("polynomial cut short", F[:-5], 1, 12),
    ("no kind 3", F[:-4], 1, 31),
    ("kind 3 cut short", F[:-1], 1, 31),
    ("wrong number and cut body", ONE + polynomial(2, length=8), 1, 12),
    ("kind 0 first", struct.pack("<HH", 8, 0) + F[4:], 2, 0),
    ("kind 4 first", struct.pack("<HH", 9, 4) + bytes(9), 2, 0),
    ("both bytes of the kind count", struct.pack("<HH", 8, 0x0101) + F[4:], 2, 0),
    ("wrong kind before wrong length and cut body", struct.pack("<HH", 9, 2), 2, 0),
    ("kind 3 where kind 2 is due", ONE + END, 2, 12),
    ("kind 2 where kind 3 is due", F[:-4] + polynomial(2) + END, 2, 31),
    ("polynomial number 0", ONE + polynomial(0) + END, 2, 12),
    ("number 1 twice", TWO + polynomial(1) + polynomial(1) + END, 2, 17),
    ("wrong number before bad terms", ONE + polynomial(2, term(9, 9, 9, 0)) + END, 2, 12),
    ("head of 7 bytes", struct.pack("<HH", 7, 1) + F[4:], 3, 0),
    ("wrong length before cut body", struct.pack("<HH", 9, 1), 3, 0),
    ("polynomial of length 0", ONE + struct.pack("<HH", 0, 2) + END, 3, 12),
    ("polynomial of length 2", ONE + polynomial(1, b"\x00") + END, 3, 12),
    ("more terms than places", ONE + polynomial(1, *[term(0, 0, 0, 1)] * 3) + END, 3, 12),
    ("kind 3 with a body", F[:-4] + struct.pack("<HH", 1, 3) + b"\x00", 3, 31),
    ("no variable", head(0, 1, 1, 0, 0, 2, 0, 0), 4, 0),
    ("four variables", head(4, 1, 1, 0, 0, 2, 0, 0), 4, 0),
    ("no polynomial", head(1, 0, 1, 0, 0, 2, 0, 0), 4, 0),
    ("four polynomials", head(1, 4, 1, 0, 0, 2, 0, 0), 4, 0),
    ("degree 7", head(1, 1, 7, 0, 0, 2, 0, 0), 4, 0),
    ("depth 11", head(1, 1, 1, 0, 0, 11, 0, 0), 4, 0),
    ("degree beyond the variables", head(1, 1, 1, 1, 0, 2, 0, 0), 4, 0),
    ("depth beyond the variables", head(2, 1, 1, 1, 0, 2, 2, 1), 4, 0),
    ("98 places", head(3, 1, 6, 6, 1, 1, 1, 1), 4, 0),
    ("all 255", head(*[255] * 8), 4, 0),
    ("exponent above its degree", ONE + polynomial(1, term(2, 0, 0, 1)) + END, 5, 17),
    ("exponent of no variable", ONE + polynomial(1, term(0, 0, 1, 1)) + END, 5, 17),
    ("exponent before coefficient", ONE + polynomial(1, term(2, 0, 0, 0)) + END, 5, 17),
    ("exponent of the second term", ONE + polynomial(1, term(0, 0, 0, 1), term(0, 1, 0, 1)), 5, 24),
    ("coefficient 0", ONE + polynomial(1, term(0, 0, 0, 0)) + END, 6, 17),
    ("coefficient above", ONE + polynomial(1, term(0, 0, 0, BILLION + 1)) + END, 6, 17),
    ("coefficient below", ONE + polynomial(1, term(0, 0, 0, -BILLION - 1)) + END, 6, 17),
    ("least 32-bit value", ONE + polynomial(1, term(0, 0, 0, -2 ** 31)) + END, 6, 17),
    ("zero at a wrong place", ONE + polynomial(1, term(1, 0, 0, 1), term(0, 0, 0, 0)), 6, 24),
    ("a term before the next", ONE + polynomial(1, term(0, 0, 0, 0), term(2, 0, 0, 1)), 6, 17),
    ("place twice", ONE + polynomial(1, term(1, 0, 0, 1), term(1, 0, 0, 1)) + END, 7, 24),
    ("places fall", TWO + polynomial(1, term(1, 0, 0, 1), term(0, 2, 0, 1)) + END, 7, 24),
    ("in the second polynomial", TWO + polynomial(1, term(2, 2, 0, 1))
     + polynomial(2, term(0, 0, 0, 1), term(0, 0, 0, 1)) + END, 7, 36),
    ("a byte after kind 3", F + b"\x00", 8, 35),
    ("kind 3 twice", F + END, 8, 35),
    ("more than the desk program reads", F + bytes(5000), 8, 35),
]

VALID = [
    ("F", F),
    ("zero polynomials", TWO + polynomial(1) + polynomial(2) + END),
    ("largest coefficients", ONE + polynomial(1, term(0, 0, 0, -BILLION), term(1, 0, 0, BILLION))
     + END),
    ("degrees 3 3 3", head(3, 1, 3, 3, 3, 10, 10, 10) + polynomial(1, *[
        term(i, j, k, 1) for i in range(4) for j in range(4) for k in range(4)]) + END),
]


def refused(data):
    """The tool's refusal as (number, offset), or None; the sentence has to be there."""
    try:
        from_bytes(data)
    except Refusal as found:
        assert len(found.meaning) > 20 and "%" not in found.meaning, found.meaning
        return found.number, found.offset
    return None


def test_refusals(checks):
    for what, data, number, offset in REFUSED:
        checks.same(what, refused(data), (number, offset))
        checks.same(what + ", second reader", refusal(data), (number, offset))
    checks.same("each number that a file can get", sorted({case[2] for case in REFUSED}),
                [1, 2, 3, 4, 5, 6, 7, 8])


def test_valid(checks):
    for what, data in VALID:
        checks.same(what, refused(data), None)
        checks.same(what + ", second reader", refusal(data), None)
        checks.same(what + ", written back", to_bytes(from_bytes(data)), data)


SENTENCES = [
    (b"", "refused 1 at 0\nthe input ends where a record of kind 1 is due\n"),
    (F[:-1], "refused 1 at 31\nthe input ends inside the header of the record at byte 31: 3 of 4 "
     "bytes are there\n"),
    (F[:20], "refused 1 at 12\nthe input ends inside the record at byte 12: 4 of the 15 bytes of "
     "its body are there\n"),
    (ONE + END, "refused 2 at 12\nthe record at byte 12 is of kind 3 where kind 2 is due\n"),
    (ONE + polynomial(2), "refused 2 at 12\nthe record at byte 12 is polynomial number 2 where "
     "number 1 is due\n"),
    (ONE + polynomial(1, b"\x00"), "refused 3 at 12\nthe record at byte 12 has length 2; kind 2 "
     "has 1 byte and 7 more for each of 0 to 2 terms\n"),
    (head(1, 1, 7, 0, 0, 2, 0, 0), "refused 4 at 0\na head value is outside its range: degree 1 "
     "is 7; expected 0 to 6\n"),
    (head(1, 1, 1, 0, 0, 2, 3, 0), "refused 4 at 0\na head value is outside its range: depth 2 "
     "is 3; expected 0, as there is one variable\n"),
    (head(3, 1, 6, 6, 1, 1, 1, 1), "refused 4 at 0\na head value is outside its range: degrees "
     "6, 6, 1 have 98 places; at most 64 are allowed\n"),
    (TWO + polynomial(1, term(1, 3, 0, 1)), "refused 5 at 17\nthe term at byte 17 has y to the "
     "power 3; the degree of y is 2\n"),
    (ONE + polynomial(1, term(0, 0, 0, 0)), "refused 6 at 17\nthe term at byte 17 has coefficient "
     "0; a zero is not written\n"),
    (ONE + polynomial(1, term(0, 0, 0, BILLION + 1)), "refused 6 at 17\nthe term at byte 17 has "
     "coefficient 1000000001; expected -1000000000 to 1000000000\n"),
    (ONE + polynomial(1, term(1, 0, 0, 1), term(0, 0, 0, 1)), "refused 7 at 24\nthe term at byte "
     "24 has place 0, which is not above place 1 of the term before\n"),
    (F + b"\x00", "refused 8 at 35\nbytes follow the last record (kind 3), the first of them at "
     "byte 35\n"),
]


def test_sentences(checks):
    for data, printed in SENTENCES:
        checks.same("show of a refused file", call("system", "show", "-", data=data),
                    (1, printed.encode(), ""))


TESTS = [test_refusals, test_valid, test_sentences]
