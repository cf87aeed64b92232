"""The system file: its limits, reading it with the numbered refusals, writing it.

A file is a row of records, little-endian: two bytes of body length, two bytes
of kind, the body. Kind 1 is the head, kind 2 a polynomial, kind 3 the end.
"""

import struct

MOST_VARIABLES = 3
MOST_POLYNOMIALS = 3
MOST_DEGREE = 6
MOST_DEPTH = 10
MOST_PLACES = 64
MOST_COEFFICIENT = 1000000000
MOST_BYTES = 4096  # what the desk program reads; a valid file has at most 1375

HEAD, POLYNOMIAL, END = 1, 2, 3
HEAD_NAMES = ("the number of variables", "the number of polynomials",
              "degree 1", "degree 2", "degree 3", "depth 1", "depth 2", "depth 3")
DEFAULT_NAMES = ("x", "y", "z")


class System:
    """One system. A polynomial is a dict from exponents (i1, i2, i3) to a
    coefficient that is not zero; degrees and depths have one entry per variable."""

    def __init__(self, degrees, depths, polynomials):
        self.degrees = list(degrees)
        self.depths = list(depths)
        self.polynomials = list(polynomials)

    @property
    def variables(self):
        return len(self.depths)


class Refusal(Exception):
    """A file that the rules refuse: the number, the offset, and a sentence."""

    def __init__(self, number, offset, meaning):
        super().__init__(number, offset, meaning)
        self.number = number
        self.offset = offset
        self.meaning = meaning

    def line(self):
        return "refused %d at %d" % (self.number, self.offset)


def padded(values):
    """Three values: those of the variables, then zeros."""
    return (list(values) + [0, 0, 0])[:3]


def places(degrees):
    """How many terms a polynomial of these degrees has room for."""
    product = 1
    for degree in degrees:
        product *= degree + 1
    return product


def place(degrees, exponents):
    """The place of a term: the file's order of terms."""
    _, second, third = padded(degrees)
    return (exponents[0] * (second + 1) + exponents[1]) * (third + 1) + exponents[2]


def counted(number, word):
    return "%d %s%s" % (number, word, "" if number == 1 else "s")


# Writing

def record(kind, body):
    return struct.pack("<HH", len(body), kind) + body


def to_bytes(system):
    """The bytes of a system that is within the limits."""
    head = [system.variables, len(system.polynomials)]
    head += padded(system.degrees) + padded(system.depths)
    parts = [record(HEAD, bytes(head))]
    for number, polynomial in enumerate(system.polynomials, 1):
        body = bytes([number])
        for exponents in sorted(polynomial, key=lambda e: place(system.degrees, e)):
            body += struct.pack("<BBBi", *exponents, polynomial[exponents])
        parts.append(record(POLYNOMIAL, body))
    parts.append(record(END, b""))
    return b"".join(parts)


# Reading

class Reader:
    """Takes the records that are due from the front of the file."""

    def __init__(self, data):
        self.data = data
        self.at = 0

    def take(self, due, length_fits, lengths):
        """The record that is due, as its offset and body. The order of the tests
        is header, kind, length, body."""
        at, left = self.at, len(self.data) - self.at
        if left == 0:
            raise Refusal(1, at, "the input ends where a record of kind %d is due" % due)
        if left < 4:
            raise Refusal(1, at, "the input ends inside the header of the record at byte "
                          "%d: %d of 4 bytes are there" % (at, left))
        length, kind = struct.unpack_from("<HH", self.data, at)
        if kind != due:
            raise Refusal(2, at, "the record at byte %d is of kind %d where kind %d is due"
                          % (at, kind, due))
        if not length_fits(length):
            raise Refusal(3, at, "the record at byte %d has length %d; kind %d has %s"
                          % (at, length, kind, lengths))
        if left - 4 < length:
            raise Refusal(1, at, "the input ends inside the record at byte %d: %d of the "
                          "%d bytes of its body are there" % (at, left - 4, length))
        self.at = at + 4 + length
        return at, self.data[at + 4:self.at]


def check_head(at, head):
    def refuse(meaning):
        raise Refusal(4, at, "a head value is outside its range: " + meaning)

    lows = (1, 1, 0, 0, 0, 0, 0, 0)
    highs = (MOST_VARIABLES, MOST_POLYNOMIALS) + (MOST_DEGREE,) * 3 + (MOST_DEPTH,) * 3
    for name, value, low, high in zip(HEAD_NAMES, head, lows, highs):
        if not low <= value <= high:
            refuse("%s is %d; expected %d to %d" % (name, value, low, high))
    variables = head[0]
    for index in range(variables, 3):
        for start in (2, 5):
            if head[start + index] != 0:
                refuse("%s is %d; expected 0, as there %s" % (
                    HEAD_NAMES[start + index], head[start + index],
                    "is one variable" if variables == 1 else "are two variables"))
    if places(head[2:5]) > MOST_PLACES:
        refuse("degrees %d, %d, %d have %d places; at most %d are allowed"
               % (*head[2:5], places(head[2:5]), MOST_PLACES))


def read_terms(at, body, degrees):
    """The terms of one polynomial record that stands at byte `at`. Each term is
    tested whole (5, 6, 7) before the next."""
    terms = {}
    before = -1
    for start in range(1, len(body), 7):
        offset = at + 4 + start
        *exponents, coefficient = struct.unpack_from("<BBBi", body, start)
        for name, exponent, degree in zip(DEFAULT_NAMES, exponents, padded(degrees)):
            if exponent > degree:
                raise Refusal(5, offset, "the term at byte %d has %s to the power %d; the "
                              "degree of %s is %d" % (offset, name, exponent, name, degree))
        if coefficient == 0:
            raise Refusal(6, offset, "the term at byte %d has coefficient 0; a zero is not "
                          "written" % offset)
        if abs(coefficient) > MOST_COEFFICIENT:
            raise Refusal(6, offset, "the term at byte %d has coefficient %d; expected %d "
                          "to %d" % (offset, coefficient, -MOST_COEFFICIENT, MOST_COEFFICIENT))
        here = place(degrees, exponents)
        if here <= before:
            raise Refusal(7, offset, "the term at byte %d has place %d, which is not above "
                          "place %d of the term before" % (offset, here, before))
        before = here
        terms[tuple(exponents)] = coefficient
    return terms


def from_bytes(data):
    """The system in a file, or a Refusal."""
    data = data[:MOST_BYTES]
    reader = Reader(data)
    at, head = reader.take(HEAD, lambda length: length == 8, "length 8")
    check_head(at, head)
    variables, count = head[0], head[1]
    system = System(head[2:2 + variables], head[5:5 + variables], [])
    room = places(system.degrees)
    for number in range(1, count + 1):
        at, body = reader.take(
            POLYNOMIAL, lambda length: length % 7 == 1 and length <= 1 + 7 * room,
            "1 byte and 7 more for each of 0 to %s" % counted(room, "term"))
        if body[0] != number:
            raise Refusal(2, at, "the record at byte %d is polynomial number %d where "
                          "number %d is due" % (at, body[0], number))
        system.polynomials.append(read_terms(at, body, system.degrees))
    reader.take(END, lambda length: length == 0, "length 0")
    if reader.at < len(data):
        raise Refusal(8, reader.at, "bytes follow the last record (kind 3), the first of "
                      "them at byte %d" % reader.at)
    return system
