"""What a file of specs/ or proofs/ declares: only declarations count, so neither a comment nor a word inside a definition is one."""
import functools
import re

NAME = r"""[^\s(){}.;,@"«»:]+"""
NOTES = re.compile(r'"(?:\\.|[^"\\\n])*"|--[^\n]*|\{-|-\}')
MARKS = r"(?P<at> *)(?P<marks>(?:(?:unfoldable|abbrev|pub) )*)"
BLOCK = re.compile(MARKS + r"(?P<kind>record|data|module) (?P<name>%s)(?: :)?(?: (?P<type>.*?))?(?: where)?$" % NAME)
SIGNATURE = re.compile(MARKS + r"(?P<names>%s(?: %s)*) :(?: (?P<type>.*))?$" % (NAME, NAME))
USE = re.compile(r"(?m)^(?:(?:unfoldable |pub |ghost )*)use ([^\s{};]+?)(?:\.\{([^}]*)\})?(?: as \S+)?;?$")
STEP = 2  # what a block's declarations stand further in than the block: `rt fmt` sees to it


@functools.lru_cache(maxsize=None)
def code(text):
    """The text without comments; its lines stay where they are. In a quoted text nothing begins a comment."""
    kept, depth, at = [], 0, 0
    for note in NOTES.finditer(text):
        between, word = text[at:note.start()], note.group()
        at = note.end()
        kept.append(between if depth == 0 else "\n" * between.count("\n"))
        if word == "{-" or (word == "-}" and depth > 0):
            depth += 1 if word == "{-" else -1
        elif depth == 0 and not word.startswith("--"):
            kept.append(word)
    rest = text[at:]
    return "".join(kept) + (rest if depth == 0 else "\n" * rest.count("\n"))


def declared(text):
    """Each declaration as (path, marks, type), the path from the file down: what stands in a record is its field, in a data type its constructor, and in
    `module _` below `_`. The type of a record or a data type is what it takes, and its level. What stands in a `where` of a clause is not declared."""
    blocks, lines = [], [line.rstrip() for line in code(text).split("\n")]
    for number, line in enumerate(lines):
        indent = len(line) - len(line.lstrip())
        while line and blocks and blocks[-1][0] >= indent:
            blocks.pop()
        if not line or indent != (blocks[-1][0] + STEP if blocks else 0):
            continue
        path = tuple(name for _, name in blocks)
        block, signature = BLOCK.match(line), SIGNATURE.match(line)
        if block:
            blocks.append((indent, block["name"]))
            if block["kind"] != "module":
                yield path + (block["name"],), block["marks"].split(), block["type"]
        elif signature:
            kind = " ".join([signature["type"] or "", *deeper(lines[number + 1:], indent)]).strip()
            for name in signature["names"].split():
                yield path + (name,), signature["marks"].split(), kind


def deeper(lines, indent):
    """The lines that go on with a signature, up to its `unfolding` line."""
    for line in lines:
        if len(line) - len(line.lstrip()) <= indent or line.lstrip().startswith("unfolding "):
            return
        yield line.strip()


def brought(text):
    """What `use` lines bring by name: {name here: (module, name there)}. A name that a glob or no line brings is not in it."""
    names = {}
    for module, leaves in USE.findall(code(text)):
        for leaf in leaves.split(","):
            there, _, here = leaf.strip().partition(" as ")
            names[(here or there).strip()] = (module, there.strip())
    return names


def said(text, name):
    """How often the name stands in a file, apart from `use` lines, its own signature and the head of its own clauses (which stand further out than lines
    that go on)."""
    if name not in text:
        return 0
    body = USE.sub("", code(text))
    body = re.sub(r"(?m)^(?:  )?(?:(?:unfoldable|abbrev|pub|record) )*%s(?= )" % re.escape(name), "", body)
    return len(re.findall(r"""(?<![^\s(){}.;,@"])%s(?![^\s(){}.;,@"])""" % re.escape(name), body))


def reached(folder):
    """The files that `mod` lines lead to from Lib.antt, itself apart."""
    waiting = [(folder / "Lib.antt", folder)]
    while waiting:
        file, below = waiting.pop()
        if not file.is_file():
            continue
        for name in re.findall(r"(?m)^(?:pub )?mod (%s)$" % NAME, code(file.read_text())):
            child = below / (name + ".antt")
            if child.is_file():
                yield child
                waiting.append((child, below / name))
