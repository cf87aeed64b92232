"""The cases of tests/cases: library calls with the answers that 01 gives, read from text. Both programs must give them.

A line is one of these; '#' starts a comment:

    case TITLE                    memory is empty from here on
    head L M N1 N2 N3 G1 G2 G3    so too: state (waiting kept visits dropped), box, coefficients, store, file
    store[6] = 2^56               one number of the store or of the coefficients
    room N                        the list has N records; new ones hold 77 seven times
    CALL -> ANSWER, COUNTS        a call on this memory, and what CALLS.md has it print; COUNTS as `3 visits, 1 dropped, 0 kept, 2 waiting`
    store is NUMBERS              what the call before has left; so too: coefficients, file, list
    read back                     what was just written is read, with the same head and numbers
    every span                    generated calls: see `spans` and `steps`
    every step of NAME.sys

A call is: read, write, start, check, visit, run BUDGET, half DIRECTION lower (or upper), middle, record OFFSET. The next call has the memory that it left, and
the box that a half answered. A refusal leaves all memory as it was, and what a call does not change is as it was; a file written is that of `written`.
Where the text does not say what a call left, it is what the independent program leaves.
"""

import os
import re
from collections import namedtuple
from fractions import Fraction

import start
from . import calls
from .case_text import CaseError, example, file_bytes, numbers, records, set_memory, written
from .memory import LITTER, Memory, hashed
from .programs import Difference, line_of, reference

FOLDER = os.path.join(start.ROOT, "tests", "cases")
FILES = ["heads.txt", "boxes.txt", "runs.txt", "files.txt"]
COUNTS = {"waiting": 0, "kept": 1, "visits": 2, "dropped": 3}  # their places in a state
Made = namedtuple("Made", "where call name answer memory")  # the memory that the call has to leave


def inputs(words):
    """A call's name and numbers."""
    name = words[0]
    if name == "run":
        return name, {"budget": int(words[1])}
    if name == "half":
        return name, {"direction": int(words[1]), "upper": ["lower", "upper"].index(words[2])}
    if name == "record":
        return name, {"offset": int(words[1])}
    return name, {}


def printed(answer):
    """The answer as CALLS.md has it printed; doubles are written as decimals or fractions in the text, and printed times 2^63."""
    word, *values = answer.split()
    return " ".join([word] + [str(int(Fraction(value) * 2**63)) for value in values]) if word == "middle" else answer


class Reader:
    """Goes through the lines of one text, and makes a list of calls."""

    def __init__(self, name):
        self.name, self.line, self.made, self.memory = name, 0, [], Memory()

    def add(self, call, name, answer, memory):
        self.made.append(Made("%s, line %d" % (self.name, self.line), call, name, answer, memory.copy()))

    def call(self, words, said):
        """A call, what it answers, and the memory that it has to leave."""
        name, given = inputs(words)
        answer, *counts = said.split(", ")
        before, call = self.memory.copy(), self.memory.call(name, **given)
        if not answer.startswith("refused"):
            self.memory.take(name, reference("calls", "--whole", data=call).decode().splitlines())
        for count in counts:
            value, what = count.split()
            self.memory.state[COUNTS[what]] = int(value)
        if name == "half" and answer.startswith("box"):
            self.memory.box = numbers(answer[4:])
        if name == "write" and answer.startswith("written"):
            data = written(before.head, before.coefficients)
            self.memory.file = data + before.file[len(data):]
        self.add(call, name, printed(answer), self.memory)
        self.before = before

    def left(self, what, text):
        """What the call before has left in a buffer; the records of the list behind those named are untouched."""
        if what == "list":
            named = records(text)
            self.memory.list = named + self.before.list[len(named):]
        else:
            setattr(self.memory, what, file_bytes(text) if what == "file" else numbers(text))
        self.made[-1] = self.made[-1]._replace(memory=self.memory.copy())

    def read_back(self):
        """The bytes just written, read into places that hold something else: the same head and numbers, and nothing beyond."""
        length = int(self.made[-1].answer.split()[1])
        memory = self.memory
        places = memory.head[1] * (memory.head[2] + 1) * (memory.head[3] + 1) * (memory.head[4] + 1)
        system = memory.coefficients[:places]
        memory.file, memory.coefficients = memory.file[:length], [LITTER] * 200
        call = memory.call("read")
        memory.coefficients = system + [LITTER] * (200 - places)
        self.add(call, "read", "read %d %d %d %d %d %d %d %d" % tuple(memory.head), memory)

    def one(self, line):
        left = re.match(r"(store|coefficients|file|list) is (.*)$", line)
        if line.startswith("case "):
            self.memory = Memory()
        elif " -> " in line:
            words, said = line.split(" -> ")
            self.call(words.split(), said)
        elif left:
            self.left(*left.groups())
        elif line == "read back":
            self.read_back()
        elif line == "every span":
            spans(self)
        elif line.startswith("every step of "):
            steps(self, line.split()[-1])
        elif not set_memory(self.memory, line):
            raise CaseError("no such line")

    def all(self, text):
        for self.line, line in enumerate(text.splitlines(), 1):
            line = line.split("#")[0].strip()
            try:
                if line:
                    self.one(line)
            except (CaseError, ValueError, KeyError, IndexError, OSError) as problem:
                raise CaseError("%s, line %d: %s: %s" % (self.name, self.line, line, problem)) from problem
        return self.made


def spans(reader):
    """All 2,047 spans: the doubles by this machine's arithmetic, a lower half and an upper half; and the first k past the last."""
    for s in range(11):
        for k in range(2**s + 1):
            memory = Memory()
            memory.box = [s, k] * 3
            doubles = [int((2 * k + 1) / 2.0 ** (s + 1) * 2.0**63)] * 3 + [int(1 / 2.0 ** (s + 1) * 2.0**63)] * 3
            halved = k < 2**s and s < 10
            answers = {("middle",): "middle %d %d %d %d %d %d" % tuple(doubles) if k < 2**s else "",
                       ("half", "1", "lower"): "box %d %d %d %d %d %d" % (s + 1, 2 * k, s, k, s, k) if halved else "",
                       ("half", "3", "upper"): "box %d %d %d %d %d %d" % (s, k, s, k, s + 1, 2 * k + 1) if halved else ""}
            for words, answer in answers.items():
                name, given = inputs(words)
                reader.add(memory.call(name, **given), name, answer or "refused 10 at 0", memory)


def steps(reader, name):
    """A reader's step from every offset of a file, and from 10 beyond its end."""
    memory = Memory()
    memory.file = data = example(name)
    for at in range(len(data) + 10):
        length, kind = (int.from_bytes(data[at + i:at + i + 2], "little") for i in (0, 2))
        body = data[at + 4:at + 4 + length]
        whole = at + 4 + length <= len(data)
        answer = "record %d %d %s %d" % (kind, length, hashed(body), at + 4 + length) if whole else "refused 1 at %d" % at
        reader.add(memory.call("record", offset=at), "record", answer, memory)


def compared(program, made, name, spoil=False):
    """Both programs on all calls; answers how many there are."""
    data = b"".join(one.call for one in made)
    expected = "".join(one.memory.lines(index, one.name, one.answer) for index, one in enumerate(made)).encode()
    found = reference("calls", data=data)
    if found != expected:
        line, wanted, got = line_of(expected, found)
        where = made[line // calls.LINES].where if line // calls.LINES < len(made) else "after the last call"
        raise Difference("the independent program, %s:\n  the case says %s\n  found         %s" % (where, wanted, got))
    return calls.compare(program, data, name, lambda index: made[index].where, spoil)


def checked(program, name, spoil=False):
    """The cases of one text."""
    with open(os.path.join(FOLDER, name), encoding="utf-8") as text:
        made = Reader("tests/cases/" + name).all(text.read())
    return compared(program, made, name, spoil)
