"""Random systems, always the same ones: text to file to text to file, and files
with bytes changed, cut off or added, against the second reader."""

import random
import struct

from readable.system_file import Refusal, from_bytes, to_bytes
from readable.system_text import from_text, to_text
from second_reader import refusal

SYSTEMS = 400
CHANGED = 10       # changed files per system
BILLION = 1000000000


def random_system(chance):
    """Degrees, depths and polynomials within all limits."""
    variables = chance.randint(1, 3)
    while True:
        degrees = [chance.randint(0, 6) for _ in range(variables)]
        if len(all_terms(degrees)) <= 64:
            break
    depths = [chance.randint(0, 10) for _ in range(variables)]
    polynomials = []
    for _ in range(chance.randint(1, 3)):
        terms = [term for term in all_terms(degrees) if chance.random() < 0.5]
        size = chance.choice([1, 9, 1000, BILLION])
        polynomials.append({term: chance.choice([-1, 1]) * chance.randint(1, size)
                            for term in terms})
    return degrees, depths, polynomials


def all_terms(degrees):
    n1, n2, n3 = (degrees + [0, 0])[:3]
    return [(i, j, k) for i in range(n1 + 1) for j in range(n2 + 1) for k in range(n3 + 1)]


def file_of(degrees, depths, polynomials):
    """The file, made apart from the tool's own writer."""
    data = struct.pack("<HH8B", 8, 1, len(degrees), len(polynomials),
                       *(degrees + [0, 0])[:3], *(depths + [0, 0])[:3])
    for number, terms in enumerate(polynomials, 1):
        data += struct.pack("<HHB", 1 + 7 * len(terms), 2, number)
        for exponents in sorted(terms):
            data += struct.pack("<BBBi", *exponents, terms[exponents])
    return data + struct.pack("<HH", 0, 3)


def loose_text(chance, degrees, depths, polynomials):
    """A text of the system as a hand might write it."""
    names = chance.choice([["x", "y", "z"], ["t", "p", "q"], ["t1", "t2", "T_3"]])[:len(degrees)]
    lines = ["depths " + " ".join(map(str, depths)),
             "degrees  " + "  ".join(map(str, degrees)) + " # degrees"]
    if names[0] != "x" or chance.random() < 0.5:
        lines.append("variables " + " ".join(names))
    chance.shuffle(lines)
    for terms in polynomials:
        pieces = []
        for exponents, value in terms.items():
            part = chance.randint(-5, 5)
            pieces += [(exponents, value - part), (exponents, part)] if part else [
                (exponents, value)]
        chance.shuffle(pieces)
        text = "".join(loose_term(chance, names, *piece) for piece in pieces)
        lines.append(text or "0")
        if chance.random() < 0.2:
            lines.append("   # between")
    return chance.choice(["\n", "\r\n"]).join(lines)


def loose_term(chance, names, exponents, value):
    def blank():
        return chance.choice(["", " ", "  "])

    factors = []
    for name, exponent in zip(names, exponents):
        if exponent > 1 and chance.random() < 0.3:
            factors += [name, "%s^%d" % (name, exponent - 1)]
        elif exponent or chance.random() < 0.1:
            factors.append(name if exponent == 1 else "%s^%d" % (name, exponent))
    chance.shuffle(factors)
    if abs(value) != 1 or not factors or chance.random() < 0.2:
        factors.insert(0, str(abs(value)))
    text = factors[0]
    for factor in factors[1:]:
        text += chance.choice([" ", "*", " * "]) + factor
    return blank() + ("-" if value < 0 else "+") + blank() + text + blank()


def changed(chance, data):
    """The file with a small fault, or with none by luck."""
    data = bytearray(data)
    way = chance.randrange(4)
    if way == 0:
        del data[chance.randrange(len(data) + 1):]
    elif way == 1:
        data += bytes(chance.randrange(4) for _ in range(chance.randint(1, 5)))
    else:
        for _ in range(way - 1):
            data[chance.randrange(len(data))] = chance.choice(
                [0, 1, 2, 3, 7, 8, 255, chance.randrange(256)])
    return bytes(data)


def test_systems(checks):
    chance = random.Random(20240117)
    for _ in range(SYSTEMS):
        system = random_system(chance)
        data = file_of(*system)
        text = loose_text(chance, *system)
        checks.same("file of %r" % text, to_bytes(from_text(text)), data)
        shown = to_text(from_bytes(data))
        checks.same("file of what is shown", to_bytes(from_text(shown)), data)
        checks.same("shown again", to_text(from_bytes(to_bytes(from_text(shown)))), shown)


def test_changed(checks):
    chance = random.Random(1729)
    numbers = set()
    for _ in range(SYSTEMS):
        data = file_of(*random_system(chance))
        for _ in range(CHANGED):
            other = changed(chance, data)
            expected = refusal(other)
            try:
                system = from_bytes(other)
                found = None
                checks.same("a changed file, shown and written",
                            to_bytes(from_text(to_text(system))), other)
            except Refusal as error:
                found = error.number, error.offset
                numbers.add(error.number)
            checks.same("refusal of %s" % other.hex(), found, expected)
    checks.same("refusals met", numbers, {1, 2, 3, 4, 5, 6, 7, 8})


def test_cut_off(checks):
    chance = random.Random(7)
    for _ in range(20):
        data = file_of(*random_system(chance))
        for length in range(len(data)):
            checks.same("%d bytes of %s" % (length, data.hex()),
                        refusal(data[:length])[0], 1)
            try:
                from_bytes(data[:length])
                found = None
            except Refusal as error:
                found = error.number, error.offset
            checks.same("%d bytes of %s" % (length, data.hex()), found, refusal(data[:length]))


TESTS = [test_systems, test_changed, test_cut_off]
