"""A wrong edit: a file of the lines `file: PATH`, `old: TEXT`, `new: TEXT`, `as: NAME NAME` and `at: WORDS`, and the crate's texts with the edit made.

The first three are the toolchain's: a `file:` line holds for the pairs after it, and each `old:` text stands once in its file. The other two are ours. The line
`at:` has the words of the place at which the prover must refuse. The prover names goals by the code's conditions, as `returns-then-i-ge10`; where an edit
changes a condition that a proof file names, a line `as: i-ge10 i-ge11` has the proof files name the goal as it is called now, so that the proof is tried and not
its names. Empty lines and lines that begin with # are passed over; any other line is a fault, so that a misspelt `at:` cannot go unnoticed.
"""

import glob
import os
import re

PARTS = ("src", "specs", "proofs")


class Bad(Exception):
    """An edit, or a crate, that cannot be tried; the text says why."""


class Edit:
    """pairs: (file, old, new) in the order of the lines; names: (before, now); at: the words, or none."""

    def __init__(self, path):
        self.path, self.pairs, self.names, self.at = path, [], [], []
        file = old = None
        with open(path, encoding="utf-8") as lines:
            for line in lines:
                key, _, text = line.rstrip("\n").partition(":")
                text = text[1:] if text.startswith(" ") else text
                if key == "file":
                    file = inside(text)
                elif key == "old" and not old:
                    old = text
                elif key == "new" and file and old:
                    self.pairs.append((file, old, text))
                    old = None
                elif key == "as":
                    self.names.append(made_names(text))
                elif key == "at" and not self.at:
                    self.at = text.split()
                elif line.strip() and not line.startswith("#"):
                    raise Bad("its line '%s' is out of place: an edit has file:, then old: and new: in pairs, as: and one at:" % line.strip())
        if not self.pairs or old:
            raise Bad("it has no whole pair of old: and new:")

    def fits(self, crate):
        """The texts that the edit changes, by file, with all pairs made; Bad if one does not fit."""
        texts = {}
        for file, old, new in self.pairs:
            if file not in texts:
                texts[file] = text_of(crate, file)
            times = texts[file].count(old)
            if times != 1:
                raise Bad("it no longer fits: '%s' stands %d times in %s" % (old.strip(), times, file))
            texts[file] = texts[file].replace(old, new)
        for before, now in self.names:
            renamed = self.renamed(crate, before, now, texts)
            if not renamed:
                raise Bad("it no longer fits: no file of proofs/ names %s" % before)
            texts.update(renamed)
        return texts

    def renamed(self, crate, before, now, texts):
        """The files of proofs/ that have one name, with the other in its place."""
        name = re.compile(r"(?<![\w'])%s(?![\w'])" % re.escape(before))
        files = sorted(os.path.relpath(file, crate) for file in glob.glob(os.path.join(crate, "proofs", "**", "*.antt"), recursive=True))
        found = {file: texts[file] if file in texts else text_of(crate, file) for file in files}
        return {file: name.sub(now, text) for file, text in found.items() if name.search(text)}

    def placed(self, crate):
        """Bad unless the line at: has a place: a function of the crate, or a file of its proofs; and a goal or a law in it."""
        if not self.at:
            raise Bad("it has no line at:, which says where it must be refused")
        if len(self.at) < 2:
            raise Bad("its line at: has one word; it takes two, a function or a law's file, and the goal or the law in it")
        if self.at[0].startswith("proofs/") and not os.path.isfile(os.path.join(crate, self.at[0])):
            raise Bad("its line at: names %s, which is not there" % self.at[0])
        if self.at[0].startswith("proofs/") and not re.search(r"(?m)^ *(?:pub )?%s(?= )" % re.escape(self.at[1]), text_of(crate, self.at[0])):
            raise Bad("its line at: names %s, which %s does not declare" % (self.at[1], self.at[0]))
        if not self.at[0].startswith("proofs/") and not has_function(crate, self.at[0]):
            raise Bad("its line at: names %s, which is no function of the crate" % self.at[0])

    def learn(self, places):
        """Writes the line at:, where it is missing or is none of these places: the first two words of the best of them. Answers what to say of it."""
        if not places or self.at and any(place.named(self.at) for place in places):
            return ""
        old, self.at = " ".join(self.at), max(places, key=self.worth).words[:2]
        with open(self.path, encoding="utf-8") as opened:
            lines = [line for line in opened.read().rstrip("\n").split("\n") if not line.startswith("at:")]
        with open(self.path, "w", encoding="utf-8") as opened:
            opened.write("\n".join(lines + ["at: " + " ".join(self.at), ""]))
        return " (learned%s)" % (old and ", and not " + old)

    def worth(self, place):
        """What makes one place better than another: to be in the file or the function that the line at: names; then to be of what a contract ensures, or else of
        an invariant, and not of safety or of what a call requires."""
        return bool(self.at) and self.at[0] in place.words, 2 * place.words[1].startswith("returns") + place.words[1].startswith("loop-")


def has_function(crate, name):
    """Whether some file of src/ declares a function of this path's last name, in this crate."""
    path = name.split("::")
    files = glob.glob(os.path.join(crate, "src", "**", "*.rt"), recursive=True)
    declares = re.compile(r"\bfn %s\b" % re.escape(path[-1]))
    return path[0] == os.path.basename(crate) and len(path) > 1 and any(declares.search(text_of(crate, os.path.relpath(file, crate))) for file in files)


def made_names(text):
    """The two words of a line as:, if they are names that the prover makes, which have a hyphen: then no name of our own, and so no step of a proof, is changed."""
    words = text.split()
    if len(words) != 2 or not all(re.fullmatch(r"[\w']+(-[\w']+)+", word) for word in words):
        raise Bad("its line 'as: %s' has not two names of the prover's, before and now, each with a hyphen" % text)
    return tuple(words)


def inside(file):
    """The path, if it is of the code or of a definition: a wrong proof shows nothing of what a contract rules out."""
    if ".." in file.split("/") or file.split("/")[0] not in ("src", "specs"):
        raise Bad("its file %s is not below src/ or specs/" % file)
    return file


def text_of(crate, file):
    try:
        with open(os.path.join(crate, file), encoding="utf-8") as opened:
            return opened.read()
    except FileNotFoundError:
        raise Bad("it no longer fits: there is no file %s" % file) from None


def paths_of(crate, folder):
    """The edits of one folder of a crate, must-fail or teeth."""
    return sorted(glob.glob(os.path.join(crate, folder, "*.edit")))


def cited(path):
    """An edit as the documents cite it: crate!edit."""
    return "%s!%s" % (path.split(os.sep)[-3], os.path.basename(path).replace(".edit", ""))


def parts_of(crate):
    """The folders of a crate that the prover reads."""
    return [part for part in PARTS if os.path.isdir(os.path.join(crate, part))]


def faults(crate):
    """What can be said of a crate's edits without the prover: how many there are, and a line for each that is wrong."""
    count, wrong, seen = 0, [], set()
    for folder in ("must-fail", "teeth"):
        for path in paths_of(crate, folder):
            count += 1
            try:
                edit = Edit(path)
                edit.fits(crate)
                if folder == "teeth":
                    edit.placed(crate)
                if os.path.basename(path) in seen:
                    raise Bad("must-fail/ has an edit of the same name, so a citation would mean two")
            except Bad as why:
                wrong.append("%s: %s" % (cited(path), why))
            seen.add(os.path.basename(path))
    return count, wrong
