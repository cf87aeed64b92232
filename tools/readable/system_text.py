"""The readable text of a system: from text to a system, and back.

    # a comment                 blank lines and comments may stand anywhere
    variables x y               one to three names; x, y, z if left out
    degrees 2 2                 taken from the polynomials if left out
    depths 8 8                  has to be given
    x^2 + y^2 - 1               then one to three polynomials, one per line
    x - y
"""

import re

from .polynomial_text import HEADINGS, PolynomialParser, TextError, term_texts
from .system_file import (DEFAULT_NAMES, MOST_DEGREE, MOST_DEPTH, MOST_PLACES,
                          MOST_POLYNOMIALS, MOST_VARIABLES, System, counted, places)


class TextParser:
    """Reads a whole text, line by line."""

    def __init__(self):
        self.given = {}      # heading -> its values
        self.lines = {}      # heading -> its line
        self.names = None
        self.polynomials = []

    def parse(self, text):
        number = 0
        for number, line in enumerate(re.split(r"\r\n|\n|\r", text), 1):
            line = line.split("#", 1)[0].rstrip()
            if not line.strip():
                continue
            words = [(m.group(), m.start() + 1) for m in re.finditer(r"\S+", line)]
            if words[0][0] in HEADINGS:
                self.heading(number, words)
            else:
                self.polynomial(number, line)
        if not self.polynomials:
            if "depths" not in self.given:
                raise TextError("expected a line 'depths' and then 1 to %d polynomials, "
                                "found the end of the text" % MOST_POLYNOMIALS, number)
            raise TextError("expected 1 to %d polynomials, one per line, found the end of "
                            "the text" % MOST_POLYNOMIALS, number)
        return self.system()

    def heading(self, line, words):
        heading = words[0][0]
        if self.polynomials:
            raise TextError("'%s' has to stand before the first polynomial" % heading, line)
        if heading in self.given:
            raise TextError("a second line '%s'; the first is line %d"
                            % (heading, self.lines[heading]), line)
        read = self.variables if heading == "variables" else self.values
        self.given[heading] = read(line, heading, words[1:])
        self.lines[heading] = line

    def variables(self, line, _, words):
        if not 1 <= len(words) <= MOST_VARIABLES:
            raise TextError("expected one to three names after 'variables', found %d"
                            % len(words), line)
        names = []
        for name, column in words:
            if not re.fullmatch(r"[A-Za-z][A-Za-z0-9_]*", name):
                raise TextError("expected a name of letters, digits and _ that begins with a "
                                "letter, found '%s'" % name, line, column)
            if name in HEADINGS:
                raise TextError("'%s' can't be the name of a variable" % name, line, column)
            if name in names:
                raise TextError("the name '%s' is given twice" % name, line, column)
            names.append(name)
        return names

    def values(self, line, heading, words):
        one = heading[:-1]
        most = MOST_DEGREE if heading == "degrees" else MOST_DEPTH
        if not 1 <= len(words) <= MOST_VARIABLES:
            raise TextError("expected one to three numbers after '%s', one for each variable, "
                            "found %d" % (heading, len(words)), line)
        for word, column in words:
            if not re.fullmatch(r"0*[0-9]{1,2}", word, re.A) or int(word[-2:]) > most:
                raise TextError("expected a whole number from 0 to %d as %s, found '%s'"
                                % (most, one, word), line, column)
        return [int(word[-2:]) for word, _ in words]

    def begin_polynomials(self, line):
        """All headings are known: they have to agree with one another."""
        if "depths" not in self.given:
            raise TextError("expected a line 'depths' before the first polynomial, and this "
                            "line is read as a polynomial", line)
        first = min(self.given, key=lambda heading: (HEADINGS.index(heading)))
        count = len(self.given[first])
        for heading in HEADINGS:
            if heading in self.given and len(self.given[heading]) != count:
                raise TextError("expected %s, as line %d gives %s; found %d" % (
                    counted(count, heading[:-1]), self.lines[first],
                    counted(count, first[:-1]), len(self.given[heading])), self.lines[heading])
        self.names = self.given.get("variables", list(DEFAULT_NAMES[:count]))
        if "degrees" in self.given:
            self.check_places(self.given["degrees"], self.lines["degrees"], "the degrees")

    def check_places(self, degrees, line, what):
        if places(degrees) > MOST_PLACES:
            raise TextError("%s %s give %s = %d terms; at most %d are allowed" % (
                what, " ".join(map(str, degrees)),
                " x ".join("(%d+1)" % degree for degree in degrees),
                places(degrees), MOST_PLACES), line)

    def polynomial(self, line, text):
        if not self.polynomials:
            self.begin_polynomials(line)
        if len(self.polynomials) == MOST_POLYNOMIALS:
            raise TextError("expected at most %d polynomials, found another one"
                            % MOST_POLYNOMIALS, line)
        parser = PolynomialParser(line, text, self.names, self.given.get("degrees"))
        self.polynomials.append(parser.parse())
        self.lines["last"] = line

    def system(self):
        degrees = self.given.get("degrees")
        if degrees is None:
            degrees = [max([0] + [exponents[index] for polynomial in self.polynomials
                                  for exponents in polynomial])
                       for index in range(len(self.names))]
            self.check_places(degrees, self.lines["last"], "the polynomials' degrees")
        return System(degrees, self.given["depths"], self.polynomials)


def from_text(text):
    """The system that a text describes, or a TextError."""
    return TextParser().parse(text)


def to_text(system):
    """A text that gives the same system again."""
    names = DEFAULT_NAMES[:system.variables]
    lines = ["variables " + " ".join(names),
             "degrees " + " ".join(map(str, system.degrees)),
             "depths " + " ".join(map(str, system.depths))]
    lines += [" ".join(term_texts(polynomial, names)) for polynomial in system.polynomials]
    return "\n".join(lines) + "\n"
