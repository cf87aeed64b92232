"""Every damage of a file, against tests/cases/damage.txt: each truncation, each other value of each byte, and zeros behind the end.

A line is one of these; '#' starts a comment:

    file NAME.sys                             the file of examples/ that is damaged from here on
    length N-M: ANSWER                        its first N bytes, its first N + 1 and so on to M
    byte P-Q: V-W ANSWER, V V ANSWER, ANSWER  each byte from P to Q set to each value; the last answer is that of every value not named
    longer: ANSWER                            one zero, or seven, behind the file

ANSWER is `refused N at OFFSET` or `read`: then the head is the file's own, and the system written back gives the same bytes. Every damage has to be named.
"""

import os
import re

from . import calls
from .case_text import EXAMPLES, CaseError, example
from .cases import FOLDER, Made, compared
from .memory import LITTER, Memory
from .programs import Difference, reference

FILE = "damage.txt"
SIZES = (1, 7)  # zeros behind the file
LITTLE = bytes([LITTER])


def values(text):
    """N or N-M, as a range."""
    first, _, last = text.partition("-")
    return range(int(first), int(last or first) + 1)


def answers_of(text):
    """The answer for each value of a byte."""
    found = {}
    for part in reversed(text.split(", ")):
        named, answer = re.match(r"([\d -]*)(.*)$", part).groups()
        if bool(found) != bool(named):
            raise CaseError("the last answer stands without values, and no other")
        for row in named.split() or ["0-255"]:
            found.update((value, answer) for value in values(row))
    return [found[value] for value in range(256)]


def one_line(data, what, said):
    """The damages that a line names, each with its answer."""
    word, *places = what.split()
    if word == "length":
        return [((0, length), data[:length], said) for length in values(places[0])]
    if word == "byte":
        answers = answers_of(said)
        return [((1, place, value), data[:place] + bytes([value]) + data[place + 1:], answers[value])
                for place in values(places[0]) for value in range(256) if value != data[place]]
    if word == "longer":
        return [((2, size), data + bytes(size), said) for size in SIZES]
    raise CaseError("no such line: %s" % what)


def complete(data, found, where):
    """All damages in the order of `reference sweep-calls`; each has to be there once."""
    due = len(data) + 1 + 255 * len(data) + len(SIZES)
    if len({key for key, _, _, _ in found}) != due or len(found) != due:
        raise CaseError("%s: %d damages are named, and there are %d" % (where, len(found), due))
    return sorted(found)


def read_text(text):
    """The files named, each with its damages."""
    found, data = {}, b""
    for number, line in enumerate(text.splitlines(), 1):
        line, where = line.split("#")[0].strip(), "tests/cases/%s, line %d" % (FILE, number)
        try:
            if line.startswith("file "):
                name = line[5:]
                data, found[name] = example(name), []
            elif line:
                found[name] += [(*one, where) for one in one_line(data, *line.split(": "))]
        except (CaseError, ValueError, TypeError, KeyError, IndexError, OSError) as problem:
            raise CaseError("%s: %s: %s" % (where, line, problem)) from problem
    return {name: complete(example(name), damages, name) for name, damages in found.items()}


def answer_of(damaged, said):
    return "read %d %d %d %d %d %d %d %d" % tuple(damaged[4:12]) if said == "read" else said


def back_call(damaged, coefficients, where):
    """What was read, written back: the same bytes, and nothing behind them."""
    memory = Memory()
    memory.head, memory.coefficients, memory.file = list(damaged[4:12]), coefficients, LITTLE * (len(damaged) + 3)
    call = memory.call("write")
    memory.file = damaged + LITTLE * 3
    return Made(where, call, "write", "written %d" % len(damaged), memory)


def back_calls(damages, data):
    """Compares the answers to the reads with the text, and answers the calls that write what was read."""
    lines, made = reference("calls", "--whole", data=data).decode().splitlines(), []
    for index, (_, damaged, said, where) in enumerate(damages):
        found, expected = lines[calls.LINES * index + 1], answer_of(damaged, said)
        if found != expected:
            raise Difference("the independent program, %s:\n  the case says %s\n  found         %s" % (where, expected, found))
        if said == "read":
            read = [int(word) for word in lines[calls.LINES * index + 4].split()[2:]]
            made.append(back_call(damaged, read[:damaged[5] * (damaged[6] + 1) * (damaged[7] + 1) * (damaged[8] + 1)], where))
    return made


def files():
    """The files whose damages are in the text."""
    with open(os.path.join(FOLDER, FILE), encoding="utf-8") as text:
        return read_text(text.read())


def checked(program, name, damages, spoil=False):
    """The damages of one file through both programs; answers how many calls there were."""
    data = reference("sweep-calls", os.path.join(EXAMPLES, name))
    if [calls.file_of(call) for call in calls.split(data)] != [damaged for _, damaged, _, _ in damages]:
        raise Difference("tests/cases/%s: not the damages of %s that the independent program makes" % (FILE, name))
    backs = back_calls(damages, data)
    done = calls.compare(program, data, "damage-" + name, lambda index: damages[index][3], False)
    return done + compared(program, backs, "back-" + name, spoil)
