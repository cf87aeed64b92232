"""One polynomial as readable text: from text to its terms, and back.

Signs, whole numbers, variables, `^` before a power; `*` between the parts of a
term may be left out. Like terms are added.
"""

import re

from .system_file import DEFAULT_NAMES, MOST_COEFFICIENT, MOST_DEGREE

HEADINGS = ("variables", "degrees", "depths")
MOST_DIGITS = 18  # of one written number, so that a slip of the hand is named as such
TOKEN = re.compile(r"(?P<number>[0-9]+)|(?P<word>[A-Za-z][A-Za-z0-9_]*)|(?P<sign>.)", re.S)

HINTS = (("()[]{}", "products with brackets have to be multiplied out"),
         ("./", "coefficients are whole numbers"),
         (",", "a number is written without commas"),
         ("=", "a line is the polynomial alone, without '= 0'"),
         ("\u2212\u2013", "a minus is written -"),
         ("\u00b2\u00b3\u2074\u2075\u2076", "a power is written x^2"))


class TextError(Exception):
    """What is wrong with a text, and where."""

    def __init__(self, message, line=None, column=None):
        where = ""
        if line is not None:
            where = "line %d" % line
            if column is not None:
                where += ", column %d" % column
            where += ": "
        super().__init__(where + message)


def either(names):
    """'x', 'x or y' or 'x, y or z'."""
    return " or ".join(filter(None, [", ".join(names[:-1]), names[-1]]))


# From text to terms


class Words:
    """The tokens of one polynomial, read one after the other."""

    def __init__(self, line, text):
        self.line = line
        self.tokens = []
        for match in TOKEN.finditer(text):
            if not match.group().isspace():
                self.tokens.append((match.lastgroup, match.group(), match.start() + 1))
        self.end = len(text.rstrip()) + 1
        self.next = 0

    def peek(self):
        if self.next < len(self.tokens):
            return self.tokens[self.next]
        return ("end", "", self.end)

    def take(self):
        token = self.peek()
        self.next += 1
        return token

    def is_sign(self, signs):
        kind, value, _ = self.peek()
        return kind == "sign" and value in signs

    def fail(self, message, column):
        raise TextError(message, self.line, column)

    def fail_here(self, expected):
        """Names what was expected and what stands there instead."""
        kind, value, column = self.peek()
        if kind == "end":
            found = "the end of the line"
        elif kind == "number":
            found = "the number " + value[:MOST_DIGITS + 2]
        elif value.isprintable():
            found = "'%s'" % value
        else:
            found = "a character with the number %d" % ord(value)
        hint = next(("; " + hint for signs, hint in HINTS if value and value in signs), "")
        self.fail("expected %s, found %s%s" % (expected, found, hint), column)


class PolynomialParser:
    """Reads the polynomial of one line. With degrees given, each written power
    is tested against them; without, against the greatest degree allowed."""

    def __init__(self, line, text, names, degrees):
        self.words = Words(line, text)
        self.names = names
        self.degrees = degrees

    def parse(self):
        """The coefficient of each term, and the column where it was first written."""
        sums, columns = {}, {}
        sign = 1
        if self.words.is_sign("+-"):
            sign = -1 if self.words.take()[1] == "-" else 1
        while True:
            column = self.words.peek()[2]
            exponents, coefficient = self.term()
            sums[exponents] = sums.get(exponents, 0) + sign * coefficient
            columns.setdefault(exponents, column)
            if self.words.peek()[0] == "end":
                break
            if not self.words.is_sign("+-"):
                self.words.fail_here("+, - or * between the parts")
            sign = -1 if self.words.take()[1] == "-" else 1
        for exponents, value in sums.items():
            if abs(value) > MOST_COEFFICIENT:
                self.words.fail("the coefficient of %s is %d; expected %d to %d" % (
                    power_text(exponents, self.names) or "the constant term", value,
                    -MOST_COEFFICIENT, MOST_COEFFICIENT), columns[exponents])
        return {exponents: value for exponents, value in sums.items() if value != 0}

    def term(self):
        coefficient, exponents = 1, [0, 0, 0]
        first, starred, after_number = True, False, False
        while True:
            kind, _, column = self.words.peek()
            if kind == "number" and (first or starred):
                coefficient *= self.number()
                if coefficient > 10 ** MOST_DIGITS:
                    self.words.fail("the product of the numbers is too large", column)
                after_number = True
            elif kind == "number" and after_number:
                self.words.fail_here("* between two numbers")
            elif kind == "number":
                self.words.fail_here("^ before a power or * before a number")
            elif kind == "word":
                self.powers(exponents)
                after_number = False
            elif first:
                self.words.fail_here("a number or a variable")
            elif starred and self.words.is_sign("*"):
                self.words.fail("a power is written x^2, not x**2", column)
            elif starred:
                self.words.fail_here("a number or a variable after *")
            else:
                return tuple(exponents), coefficient
            self.check(exponents, column)
            first = False
            starred = self.words.is_sign("*")
            if starred:
                self.words.take()
            elif self.words.is_sign("^"):
                self.words.fail("a power stands once, and after a variable",
                                self.words.peek()[2])

    def number(self):
        _, value, column = self.words.take()
        if len(value.lstrip("0")) > MOST_DIGITS:
            self.words.fail("the number has more than %d digits; a coefficient is %d to %d"
                            % (MOST_DIGITS, -MOST_COEFFICIENT, MOST_COEFFICIENT), column)
        return int(value)

    def powers(self, exponents):
        """A variable, or several of one letter side by side, with the power that
        may follow: it belongs to the last of them."""
        _, word, column = self.words.take()
        power = 1
        run = self.split(word, column)
        if self.words.is_sign("^"):
            self.words.take()
            kind, value, at = self.words.peek()
            if kind != "number":
                self.words.fail_here("a whole number after ^")
            self.words.take()
            value = value.lstrip("0") or "0"
            if len(value) > MOST_DIGITS:
                self.words.fail("a power has too many digits; expected 0 to %d"
                                % MOST_DEGREE, at)
            power = int(value)
        for name in run[:-1]:
            exponents[self.names.index(name)] += 1
        exponents[self.names.index(run[-1])] += power

    def split(self, word, column):
        if word in self.names:
            return [word]
        if all(letter in self.names for letter in word):
            return list(word)
        letters = word.rstrip("0123456789")
        if letters != word and all(letter in self.names for letter in letters):
            self.words.fail("'%s' is not a variable; a power is written %s^%s"
                            % (word, letters, word[len(letters):]), column)
        if word in HEADINGS:
            self.words.fail("'%s' has to be the first word of its line, with a blank after it"
                            % word, column)
        message = "'%s' is not a variable; expected %s" % (word, either(self.names))
        if column == 1:
            message += ", or a line that begins with " + either(HEADINGS)
        elif len(word) > 1 and any(len(name) > 1 for name in self.names):
            message += ", with * or a blank between names"
        self.words.fail(message, column)

    def check(self, exponents, column):
        for index, name in enumerate(self.names):
            limit = MOST_DEGREE if self.degrees is None else self.degrees[index]
            if exponents[index] > limit:
                what = "at most %d is allowed" if self.degrees is None else "its degree is %d"
                self.words.fail("%s has the power %d; %s"
                                % (name, exponents[index], what % limit), column)


# From terms to text


def power_text(exponents, names, power="^{}".format, between=" "):
    """The powers of one term; empty for the constant term."""
    return between.join(name + (power(exponent) if exponent > 1 else "")
                        for name, exponent in zip(names, exponents) if exponent > 0)


def term_texts(polynomial, names=DEFAULT_NAMES, minus="-", **style):
    """The terms with their signs, the highest total degree first."""
    def rank(item):
        return -sum(item[0]), [-exponent for exponent in item[0]]

    texts = []
    for exponents, coefficient in sorted(polynomial.items(), key=rank):
        powers = power_text(exponents, names, **style)
        size = str(abs(coefficient))
        body = size if not powers else powers if size == "1" else size + " " + powers
        if texts:
            texts.append((minus if coefficient < 0 else "+") + " " + body)
        else:
            texts.append((minus if coefficient < 0 else "") + body)
    return texts or ["0"]
