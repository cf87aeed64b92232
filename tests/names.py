#!/usr/bin/env python3
"""Every name that the documents cite is declared: `crate/File.name` in specs, `crate::path::name` in src, `crate!edit` in must-fail or teeth, and
after "run:" a text of tests/cases or a program whose output the gate compares. A short name directly after another, `crate/File.name`, `other`,
is of the same file; one that stands alone in docs/CLAIMS.md or docs/ENEMY.md and begins with a capital is declared in some crate. And no file of specs/ or
src/ cites proofs/: what a reader has to believe, and what contracts say, stands in specs/.

    tests/names.py            checks docs/*.md, README.md and the crates, and prints how many names it found
Ends with 1 and a line for each name that is nowhere, and for each file that cites proofs/.
"""
import functools
import pathlib
import re
import sys

sys.dont_write_bytecode = True
from citing import antt, rattle
from citing.documents import EDIT, IN_SPECS, IN_SRC, names

ROOT = pathlib.Path(__file__).resolve().parent.parent
CRATES = {p.name for p in (ROOT / "crates").iterdir() if p.is_dir()}
CLAIMING = {"CLAIMS.md": ("some crate",), "ENEMY.md": ("some crate",)}  # where a short name that stands alone is looked for


@functools.lru_cache(maxsize=None)
def declared(file):
    return {tuple(name for name in path if name != "_") for path, _, _ in antt.declared(file.read_text())}


@functools.lru_cache(maxsize=None)
def paths(src):
    return rattle.paths(src)


def in_specs(crate, file, rest):
    """A file of specs/, and a definition, a statement, a constructor or a field in it."""
    path = ROOT / "crates" / crate / "specs" / (file + ".antt")
    parts = tuple(rest.split(".")[1:])
    return path.is_file() and (not parts or any(found[-len(parts):] == parts for found in declared(path)))


def in_src(crate, rest):
    """A module, a type, a function or a constant of the crate, or what a type has: a field, a case or a method."""
    return tuple(rest.split("::")[1:]) in paths(ROOT / "crates" / crate / "src")


def in_edits(crate, name):
    return any((ROOT / "crates" / crate / folder / (name + ".edit")).is_file() for folder in ("must-fail", "teeth"))


def exists(name):
    for form, there in ((EDIT, in_edits), (IN_SRC, in_src), (IN_SPECS, in_specs)):
        found = form.match(name)
        if found:
            return found.group(1) in CRATES and there(*found.groups())
    return False


def somewhere(name):
    """Declared in some crate, in specs/ or in src/."""
    parts = tuple(re.split(r"\.|::", name))
    found = [declared(file) for file in ROOT.glob("crates/*/specs/**/*.antt")] + [paths(ROOT / "crates" / crate / "src") for crate in CRATES]
    return any(path[-len(parts):] == parts for some in found for path in some)


def cited_in(document):
    """The names that a document cites, each with whether it exists."""
    for name in names(document.read_text(), CRATES, CLAIMING.get(document.name, ())):
        if isinstance(name, str):
            yield name, exists(name)
        elif name[0][0].isupper():
            yield name[0], somewhere(name[0])


def in_runs(name):
    """A text of cases, or a program with the output that it must write."""
    return (ROOT / name).is_file() if name.startswith("tests/cases/") else (ROOT / "crates" / name / "stdout").is_file()


def runs_in(text):
    """What is named after "run:", up to the end of the cell or sentence, each with whether it exists."""
    for named in re.findall(r"\brun: ([^;|\n]+)", text):
        for name in re.sub(r"\([^)]*\)", "", named).split(","):
            name = name.strip().rstrip(".")
            yield "run: " + name, in_runs(name)


def citing_proofs():
    """The files of specs/ and src/ that cite proofs/."""
    for file in sorted([*ROOT.glob("crates/*/specs/**/*.antt"), *ROOT.glob("crates/*/src/**/*.rt")]):
        if CRATES.intersection(re.findall(r"\bRattle\.(\w+)\.proofs\b", file.read_text())):
            yield f"{file.relative_to(ROOT)}: it cites proofs/"


def main():
    count, missing = 0, []
    for document in [ROOT / "README.md", *sorted((ROOT / "docs").rglob("*.md"))]:
        for cited, there in [*cited_in(document), *runs_in(document.read_text())]:
            count += 1
            if not there:
                missing.append(f"{document.relative_to(ROOT)}: `{cited}` is nowhere")
    citing = list(citing_proofs())
    print("\n".join(missing + citing + [f"{count} names cited, {len(missing)} missing, {len(citing)} files cite proofs/"]))
    return 1 if missing or citing else 0


if __name__ == "__main__":
    sys.exit(main())
