"""What a library call brings along and leaves: as the bytes of a call, and as the lines printed after it (tests/reference/CALLS.md)."""

import copy
import struct

NUMBERS = {name: number for number, name in enumerate(
    ["read", "write", "start", "check", "visit", "run", "half", "middle", "record"], 1)}
# what a call may change; everything else is afterwards what it was
CHANGES = {"read": ["coefficients"], "write": ["file"], "start": ["state", "store"], "visit": ["state", "store", "list"], "run": ["state", "store", "list"]}
LITTER = 77  # what a lent place holds before a call, so that one that is written shows
BASIS, PRIME = 0xcbf29ce484222325, 0x100000001b3


def hashed(data):
    """FNV-1a with 64 bits, as 16 digits."""
    value = BASIS
    for byte in data:
        value = (value ^ byte) * PRIME % 2**64
    return "%016x" % value


def packed(numbers):
    return struct.pack("<%dq" % len(numbers), *numbers)


class Memory:
    """The head, the state and a box by value, and the four lent buffers; the list is flat, seven numbers to a record."""

    def __init__(self):
        self.head, self.state, self.box = [0] * 8, [0] * 4, [0] * 6
        self.file, self.coefficients, self.store, self.list = b"", [], [], []

    def copy(self):
        return copy.deepcopy(self)

    def call(self, name, budget=0, direction=0, upper=0, offset=0):
        """The bytes of a call."""
        sizes = [len(self.file), len(self.coefficients), len(self.store), len(self.list) // 7]
        fields = [*self.state, budget, direction, upper, *self.box, offset]
        return (struct.pack("<5Q", NUMBERS[name], *sizes) + bytes(self.head) + struct.pack("<14Q", *fields)
                + self.file + packed(self.coefficients) + packed(self.store) + packed(self.list))

    def lines(self, index, name, answer):
        """The seven lines printed after a call that answered so and left this memory."""
        return "call %d %s\n%s\nstate %d %d %d %d\n" % (index, name, answer, *self.state) + "".join(
            "%s %d %s\n" % (what, count, hashed(data)) for what, count, data in (
                ("file", len(self.file), self.file),
                ("coefficients", len(self.coefficients), packed(self.coefficients)),
                ("waiting", len(self.store), packed(self.store)),
                ("kept", len(self.list) // 7, packed(self.list))))

    def take(self, name, lines):
        """What the call changed, from lines that show the buffers whole."""
        said = [[int(word) for word in line.split()[1:]] for line in lines[2:]]
        shown = {"state": said[0], "file": bytes(said[1][1:]), "coefficients": said[2][1:], "store": said[3][1:], "list": said[4][1:]}
        for what in CHANGES.get(name, []):
            setattr(self, what, shown[what])
