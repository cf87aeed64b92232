"""What the src/ of a crate declares, as paths: modules, functions, types, constants, the fields or cases of a type, and methods.

    python3 tests/citing/rattle.py       how many functions the crates have
"""
import pathlib
import re

NOTES = re.compile(r"""b?"(?:\\.|[^"\\\n])*"|b?'(?:\\.|[^'\\\n])'|//[^\n]*|/\*.*?\*/""", re.S)
ITEM = re.compile(
    r"""\s*(?:pub(?:\([^)]*\))? |ghost |extern "" )*(?P<kind>fn|struct|enum|trait|const|impl|mod)(?:<[^>]*>)? (?:[\w<>\[\];, ']+ for )?(?P<name>\w+)"""
)
FUNCTION = re.compile(r"""(?m)^ *(?:pub(?:\([^)]*\))? )?(?:extern "" )?fn \w""")
TRAIT = re.compile(r"(?ms)^(?:pub )?trait .*?^}")
MEMBER = re.compile(r"\s*(?:pub(?:\([^)]*\))? )?(?P<name>\w+)\s*(?:[:,({]|$)")


def code(text):
    """The text without comments, and without what is quoted."""
    return NOTES.sub(lambda note: '""' if note.group().lstrip("b")[0] in "\"'" else "\n" * note.group().count("\n"), text)


def items(text):
    """The paths of a file. A module that it only names, `mod m;`, is a path too. What stands inside a function is not declared."""
    blocks, depth = [], 0  # the blocks around a line: the depth of their lines, their kind, their name
    for line in code(text).split("\n"):
        while blocks and blocks[-1][0] > depth:
            blocks.pop()
        inside, kind, _ = blocks[-1] if blocks else (0, "mod", "")
        path = tuple(block[2] for block in blocks)
        if depth == inside:
            item, member = ITEM.match(line), MEMBER.match(line)
            if item:
                if item["kind"] != "impl":
                    yield path + (item["name"],)
                if item["kind"] not in ("fn", "const") and "{" in line:
                    blocks.append((depth + 1, item["kind"], item["name"]))
            elif member and kind in ("struct", "enum", "trait"):
                yield path + (member["name"],)
        depth += line.count("{") - line.count("}")


def paths(src):
    """The paths of a crate, from lib.rt or main.rt along its modules."""
    waiting, found = [((), src, src / root) for root in ("lib.rt", "main.rt")], set()
    while waiting:
        path, below, file = waiting.pop()
        if not file.is_file():
            continue
        for item in items(file.read_text()):
            found.add(path + item)
            waiting.append((path + item, below / item[-1], below / (item[-1] + ".rt")))
    return found


def functions(text):
    """How many functions a file has. What a trait asks for is none yet: each `impl` has it."""
    return len(FUNCTION.findall(TRAIT.sub("", code(text))))


if __name__ == "__main__":
    top = pathlib.Path(__file__).resolve().parent.parent.parent
    print("%d functions" % sum(functions(file.read_text()) for file in top.glob("crates/*/src/**/*.rt")))
