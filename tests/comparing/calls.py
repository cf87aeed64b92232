"""Library calls: a sequence of them through both programs (tests/reference/CALLS.md)."""

import struct

from .programs import Difference, flipped, line_of, output, reference, save

LINES = 7  # of each call's answer
HEADER = 160


def length(data, at):
    """The bytes of the call that begins there."""
    sizes = struct.unpack_from("<4Q", data, at + 8)
    return HEADER + sizes[0] + 8 * (sizes[1] + sizes[2] + 7 * sizes[3])


def split(data):
    """The calls of a sequence."""
    calls, at = [], 0
    while at < len(data):
        end = at + length(data, at)
        calls.append(data[at:end])
        at = end
    return calls


def file_of(call):
    """The file buffer of a call."""
    return call[HEADER:HEADER + struct.unpack_from("<Q", call, 8)[0]]


def compare(program, data, name, maker_of, spoil):
    """Compares the answers to all calls of `data`; answers how many there are."""
    expected, found = reference("calls", data=data), output(program, data)
    if spoil:
        found = flipped(found)
    if expected == found:
        return expected.count(b"\n") // LINES
    line, wanted, got = line_of(expected, found)
    index = line // LINES
    calls = split(data)
    if index >= len(calls):
        raise Difference("%s: %r after the last call" % (name, got))
    path = save("%s-%d.call" % (name, index), calls[index])
    raise Difference("%s, call %d, made by %s:\n  expected %s\n  found    %s\n  its input is in %s"
                     % (name, index, maker_of(index), wanted, got, path))


def made(program, seed, count, spoil=False):
    """COUNT seeded calls."""
    def maker_of(index):
        names = reference("name-calls", seed, count).decode().splitlines()
        return names[index].split()[1]

    data = reference("make-calls", seed, count)
    return compare(program, data, "seed-%d" % seed, maker_of, spoil)


def swept(program, file, name):
    """Every truncation, every other value of every byte and two extensions of a file, read."""
    data = reference("sweep-calls", file)
    return compare(program, data, "sweep-" + name, lambda index: "sweep-calls", False)
