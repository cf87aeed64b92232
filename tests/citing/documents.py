"""The names that a document cites, each written out in full."""
import re

QUOTED = re.compile(r"`([^`\n]+)`")
IN_SPECS = re.compile(r"(\w+)/([A-Z][\w′₁₂₃'·-]*)((?:\.[\w′₁₂₃'·-]+)*)$")
IN_SRC = re.compile(r"([a-z]\w*)((?:::\w+)+)$")  # a path that begins with a type, `Child::lower`, is short
EDIT = re.compile(r"(\w+)!(\w+)$")
SHORT = re.compile(r"[A-Za-z_][\w′₁₂₃'·-]*(?:(?:\.|::)[\w′₁₂₃'·-]+)*$")
AND = re.compile(r"(?:,|,? and)\s$")
SPEECH = {"crate"}  # what stands before `/`, `::` or `!` and is no crate


def full(name):
    """Whether a name says its crate."""
    return any((form := pattern.match(name)) and form.group(1) not in SPEECH for pattern in (IN_SPECS, IN_SRC, EDIT))


def beside(name, short):
    """A short name after a full one, written out: in the same file, or as the end of the same path."""
    specs = IN_SPECS.match(name)
    if specs:
        return "%s/%s.%s" % (specs.group(1), specs.group(2), short)
    path, ends = name.split("::"), short.split("::")
    return "::".join(path[:max(1, len(path) - len(ends))] + ends)


def names(text, crates, files=()):
    """The names of a text in full. A short one counts directly after another name, `a/B.c`, `d`, and is then of the same file; or anywhere in a text that
    speaks of certain files: then (short, files) is yielded."""
    before, ended = None, 0
    for quoted in QUOTED.finditer(text):
        name, joined = quoted.group(1), AND.match(text[ended:quoted.start()])
        ended = quoted.end()
        if full(name):
            before = name
            yield name
        elif not SHORT.match(name) or name in crates:
            before = None
        elif before and joined and not EDIT.match(before):
            before = beside(before, name)
            yield before
        else:
            before = None
            if files:
                yield name, files


def columns(text, title):
    """The cells of the columns of that title, each with the files that its section's heading names."""
    files, place = [], None
    for line in text.split("\n"):
        cells = [cell.strip() for cell in line.strip("|").split("|")] if line.startswith("|") else []
        if line.startswith("#"):
            files = re.findall(r"\b\w+/[A-Z]\w*", line)
        if not cells:
            place = None
        elif place is None:
            place = cells.index(title) if title in cells else -1
        elif 0 <= place < len(cells):
            yield cells[place], files
