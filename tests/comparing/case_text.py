"""The words of tests/cases/*.txt: numbers, lists of them, files, and the lines that set memory."""

import os
import re
import struct

import start
from .memory import LITTER

EXAMPLES = os.path.join(start.ROOT, "examples")
POWER = re.compile(r"(1-)?(-?)2\^(\d+)(-1)?$")


class CaseError(Exception):
    """A line that is not in the form; the text says what is wrong."""


def number(word):
    """Decimal digits, or 2^N, -2^N, 2^N-1, 1-2^N."""
    found = POWER.match(word)
    if not found:
        return int(word)
    power = 2 ** int(found.group(3))
    if found.group(1):
        return 1 - power
    return (-power if found.group(2) else power) - (1 if found.group(4) else 0)


def numbers(text):
    """`N of X ..` is N numbers, the ones named again and again; otherwise each word is a number or X*N, N times the number X."""
    if " of " in text:
        count, row = text.split(" of ")
        row = [number(word) for word in row.split()]
        return [row[i % len(row)] for i in range(int(count))]
    found = []
    for word in text.split():
        value, _, times = word.partition("*")
        found += [number(value)] * int(times or 1)
    return found


def example(name):
    with open(os.path.join(EXAMPLES, name), "rb") as file:
        return file.read()


def file_bytes(text):
    """NAME.sys of examples/ or bytes in hex; then, in this order, `with P=V ..` (hex), `and HEX` behind it, `first N`; or `N of BYTE`."""
    if " of " in text:
        return bytes(numbers(text))
    parts = re.match(r"(.*?)(?: with ([0-9a-fA-F= ]+?))?(?: and ([0-9a-fA-F ]+?))?(?: first (\d+))?$", text)
    what, changes, more, length = parts.groups()
    data = bytearray(example(what) if what.endswith(".sys") else bytes.fromhex(what))
    for change in (changes or "").split():
        place, value = change.split("=")
        data[int(place)] = int(value, 16)
    data += bytes.fromhex(more or "")
    return bytes(data[:int(length)] if length else data)


def records(text):
    """Records of seven numbers, separated by commas."""
    found = [value for record in text.split(",") for value in numbers(record)]
    if len(found) % 7:
        raise CaseError("a record of the list has seven numbers")
    return found


def set_memory(memory, line):
    """A line that sets memory; False if it is none."""
    place = re.match(r"(coefficients|store)\[(\d+)\] = (\S+)$", line)
    if place:
        getattr(memory, place.group(1))[int(place.group(2))] = number(place.group(3))
        return True
    what, _, rest = line.partition(" ")
    lengths = {"head": 8, "state": 4, "box": 6}
    if what in lengths:
        values = numbers(rest)
        if len(values) != lengths[what]:
            raise CaseError("%s has %d numbers" % (what, lengths[what]))
        setattr(memory, what, values)
    elif what in ("coefficients", "store"):
        setattr(memory, what, numbers(rest))
    elif what == "file":
        memory.file = file_bytes(rest)
    elif what == "room":
        memory.list = (memory.list + [LITTER] * (7 * int(rest)))[:7 * int(rest)]
    else:
        return False
    return True


def written(head, coefficients):
    """The file of a system, by the form of 01 alone."""
    strides = [degree + 1 for degree in head[2:5]]
    size = strides[0] * strides[1] * strides[2]
    data = struct.pack("<HH8B", 8, 1, *head)
    for polynomial in range(head[1]):
        terms = b""
        for place in range(size):
            value = coefficients[polynomial * size + place]
            exponents = (place // (strides[1] * strides[2]), place // strides[2] % strides[1], place % strides[2])
            terms += struct.pack("<3Bi", *exponents, value) if value else b""
        data += struct.pack("<HHB", 1 + len(terms), 2, polynomial + 1) + terms
    return data + struct.pack("<HH", 0, 3)
