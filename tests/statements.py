#!/usr/bin/env python3
"""Every statement of specs/ has its proof in proofs/ of the same crate, and docs/CLAIMS.md or docs/ENEMY.md cites it.

A statement is a type of specs/ that takes nothing and that no other definition and no contract uses, `abbrev pub NoZeroLost : Type 0`: a type that
nothing is made of is a claim. (A type that takes something is none; if not even a proof uses it, that is a fault.) Its proof is declared on a line of its
own as `pub no_zero_lost : NoZeroLost`, with a clause, in a file that `mod` lines lead to from proofs/Lib.antt and that brings the name from specs/.
The documents name statements in the columns Promise (docs/CLAIMS.md) and Statement (docs/ENEMY.md): each one there must be a statement.

    tests/statements.py       checks the crates and both documents, and prints how many statements each crate has
Ends with 1 and a line for each fault.
"""
import collections
import pathlib
import re
import sys

sys.dont_write_bytecode = True
from citing import antt
from citing.documents import IN_SPECS, columns, names

ROOT = pathlib.Path(__file__).resolve().parent.parent
CRATES = sorted(p.name for p in (ROOT / "crates").iterdir() if p.is_dir())
COLUMNS = (("docs/CLAIMS.md", "Promise"), ("docs/ENEMY.md", "Statement"))
LEVEL = r"Type \d+$"  # the end of a type's type, and all of a statement's


class Crates:
    """The files of the crates, and which types of specs/ they use."""

    def __init__(self):
        self.specs = {file: file.read_text() for file in sorted(ROOT.glob("crates/*/specs/**/*.antt"))}
        self.stated = bringing([*self.specs.values(), *texts("src/**/*.rt")])
        self.proofs = bringing(texts("proofs/**/*.antt"))

    def unused(self):
        """Each type of specs/ that no other definition and no contract uses: its crate, its file, its name, and whether it takes something.
        One that takes something may be there for proofs."""
        for file, text in self.specs.items():
            crate, stem = file.relative_to(ROOT).parts[1], file.stem
            for path, _, kind in antt.declared(text):
                if path[:-1] not in ((), ("_",)) or not re.search(LEVEL, kind) or antt.said(text, path[-1]):
                    continue
                takes = len(path) > 1 or not re.match(LEVEL, kind)
                users = [user for files in [self.stated] + [self.proofs] * takes for user in files[module(crate, stem), path[-1]]]
                if not any(antt.said(text, here) for text, here in users):
                    yield crate, stem, path[-1], takes


def texts(files):
    return [file.read_text() for file in sorted(ROOT.glob("crates/*/" + files))]


def bringing(files):
    """For each (module, name) the texts that bring it, each with the name that it has there."""
    users = collections.defaultdict(list)
    for text in files:
        for here, there in antt.brought(text).items():
            users[there].append((text, here))
    return users


def module(crate, file):
    """A file of specs/, as `use` lines name it."""
    return f"Rattle.{crate}.specs.{file}"


def proved(crate):
    """The types (module, name) of which the crate's proofs/ has a proof, each with the proof's name."""
    for file in antt.reached(ROOT / "crates" / crate / "proofs"):
        text = file.read_text()
        brought, declared = antt.brought(text), list(antt.declared(text))
        own = {path[-1] for path, _, _ in declared}
        for path, marks, kind in declared:
            if len(path) == 1 and marks == ["pub"] and kind in brought and kind not in own and has_clause(text, path[0]):
                yield brought[kind], path[0].lower()


def has_clause(text, name):
    return re.search(r"(?m)^%s(?: +[^\s:].*)?$" % re.escape(name), antt.code(text))


def proof_of(name):
    """The proof's name: the statement's words in snake case. (A proof may keep a capital that is a name, as `prints_F`.)"""
    return re.sub(r"(?<!^)([A-Z])", r"_\1", name).lower()


def cited():
    """The names of specs/ in the columns for statements, with the document."""
    for document, title in COLUMNS:
        text = (ROOT / document).read_text()
        for cell, files in columns(text, title):
            for name in names(cell, CRATES, files):
                if isinstance(name, tuple):
                    yield document, [f"{file}.{name[0]}" for file in name[1]]
                elif IN_SPECS.match(name) and IN_SPECS.match(name).group(3):
                    yield document, [name]


def faults(claims, loose):
    for crate, file, name in loose:
        yield f"crates/{crate}/specs/{file}.antt: nothing uses {name}, and it is no statement, as it takes something"
    proofs = {crate: set(proved(crate)) for crate in CRATES}
    for crate, file, name in claims:
        if ((module(crate, file), name), proof_of(name)) not in proofs[crate]:
            yield (f"crates/{crate}/specs/{file}.antt: {name} has no proof: "
                   f"no file that proofs/Lib.antt leads to has `pub {proof_of(name)} : {name}`, with a clause")
    known, found = {f"{crate}/{file}.{name}" for crate, file, name in claims}, set()
    for document, candidates in cited():
        found.update(candidates)
        if not known.intersection(candidates):
            yield f"{document}: {' or '.join(candidates)} is cited as a statement, and is none"
    for name in sorted(known - found):
        yield f"{name} is cited neither in the column Promise of docs/CLAIMS.md nor in the column Statement of docs/ENEMY.md"


def main():
    types = list(Crates().unused())
    claims = [(crate, file, name) for crate, file, name, takes in types if not takes]
    wrong = list(faults(claims, [(crate, file, name) for crate, file, name, takes in types if takes]))
    counts = [(crate, sum(claim[0] == crate for claim in claims)) for crate in CRATES]
    print("\n".join(["FAILED: " + fault for fault in wrong]
                    + [f"{len(claims)} statements, {len(wrong)} faults ({', '.join(f'{crate} {count}' for crate, count in counts if count)})"]))
    return 1 if wrong else 0


if __name__ == "__main__":
    sys.exit(main())
