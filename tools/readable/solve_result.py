"""What the desk program prints, read back.

The first line is `WORD visits dropped kept waiting`. Then comes one line per
kept box: `s1 k1 s2 k2 s3 k3 mark`. A caller of the library who has the waiting
boxes too may add one line for each of them: `waiting s1 k1 s2 k2 s3 k3`.
"""

import re

from .system_file import padded

WORDS = ("finished", "spent", "full")


class ResultError(Exception):
    """What is wrong with a result, and in which line."""

    def __init__(self, message, line=None):
        super().__init__(message if line is None else "line %d: %s" % (line, message))


class Box:
    """Cuts s and position k of each direction; mark 1, 2, or 0 for waiting."""

    def __init__(self, cuts, positions, mark):
        self.cuts = cuts
        self.positions = positions
        self.mark = mark

    def spans(self, directions):
        """From and to in each direction, in 1024ths."""
        units = [1 << (10 - cuts) for cuts in self.cuts[:directions]]
        return [(position * unit, (position + 1) * unit)
                for position, unit in zip(self.positions, units)]


class Result:
    def __init__(self, line, word, counts):
        self.line = line
        self.word = word
        self.visits, self.dropped, self.kept_count, self.waiting_count = counts
        self.kept = []
        self.waiting = []


def numbers(words, line, expected):
    """Whole numbers of at most 10 digits; anything else is an error."""
    for word in words:
        if not re.fullmatch(r"[0-9]{1,10}", word):
            raise ResultError("expected %s, found '%s'" % (expected, word), line)
    return [int(word) for word in words]


def read_first(line):
    words = line.split()
    if words and words[0] == "refused":
        raise ResultError("the system was refused (%s): there is nothing to draw" % line.strip())
    expected = "'finished', 'spent' or 'full' and four counts"
    if len(words) != 5 or words[0] not in WORDS:
        raise ResultError("expected %s, found '%s'" % (expected, line.strip()), 1)
    result = Result(line.strip(), words[0], numbers(words[1:], 1, expected))
    if (result.word == "finished") != (result.waiting_count == 0):
        raise ResultError("'%s' does not go with %s" % (
            result.word, "no waiting box" if result.waiting_count == 0 else "waiting boxes"), 1)
    return result


def read_box(words, line, depths, mark):
    values = numbers(words, line, "whole numbers")
    box = Box(values[0::2], values[1::2], mark)
    for direction, depth in enumerate(padded(depths), 1):
        cuts, position = box.cuts[direction - 1], box.positions[direction - 1]
        if cuts > depth:
            raise ResultError("s%d is %d; the system's depth there is %d"
                              % (direction, cuts, depth), line)
        if position >= 1 << cuts:
            raise ResultError("k%d is %d; with s%d = %d it is at most %d" % (
                direction, position, direction, cuts, (1 << cuts) - 1), line)
    return box


def read_result(text, depths):
    """The result of a run of a system with these depths, or a ResultError."""
    lines = [(number, line) for number, line in enumerate(text.splitlines(), 1) if line.strip()]
    if not lines:
        raise ResultError("the result is empty; expected what the desk program prints")
    result = read_first(lines[0][1])
    for number, line in lines[1:]:
        words = line.split()
        if words[0] == "waiting" and len(words) == 7:
            result.waiting.append(read_box(words[1:], number, depths, 0))
        elif len(words) == 7 and not result.waiting:
            if words[6] not in ("1", "2"):
                raise ResultError("expected mark 1 or 2, found '%s'" % words[6], number)
            result.kept.append(read_box(words[:6], number, depths, int(words[6])))
        else:
            raise ResultError("expected a kept box 's1 k1 s2 k2 s3 k3 mark' or, after these, "
                              "'waiting s1 k1 s2 k2 s3 k3', found '%s'" % line.strip(), number)
    if len(result.kept) != result.kept_count:
        raise ResultError("the first line counts %d kept, but lines of kept boxes: %d"
                          % (result.kept_count, len(result.kept)))
    if result.waiting and len(result.waiting) != result.waiting_count:
        raise ResultError("the first line counts %d waiting, but lines of waiting boxes: %d"
                          % (result.waiting_count, len(result.waiting)))
    return result
