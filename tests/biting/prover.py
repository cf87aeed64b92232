"""The prover: the copies of the repository in which `rt check` is asked about a crate, and the places at which it refuses."""

import os
import re
import shutil
import subprocess

from .edits import PARTS, Bad

LONGEST = 900  # seconds: an edit that keeps the prover longer than this is a fault, not a refusal
SHOWN = 160  # characters of a message that are shown: it can run to thousands
# a refusal that is no fact: it follows from another one, or the edit changed the shape of the code or the names that a proof cites
FOLLOWS = ("was not admitted",)
SHAPE = ("that can be named from here", "has no field", "has room for only", "is not in scope", "has no `")
# a definition that is not understood, though the prover names it
UNREAD = re.compile(r"is not in scope|has no field|is no name|operand is missing|expected the end|cannot continue")

ERROR = re.compile(r"(?:\./)?(\S+?):\d+:\d+: error: (?:`([^`]+)`: )?(.*)")
ALONE = re.compile(r"fn (\S+): no proof: .*`search` did not prove (.*)")
LEFT = re.compile(r"note: src/\S+:\d+:\d+: it is not proved that .*\(`([^`]+)`\)(?:;|$)")  # a goal that no file answers
NOT_PROVED = re.compile(r"fn (\S+): not proved")
OF_A_FUNCTION = re.compile(r"proofs/(\S+)/(?:Answers|Invariants|Proof)\.antt$")


def crates_of(root):
    """The crates of crates.txt: the line of each, and those that it stands on."""
    with open(os.path.join(root, "crates.txt"), encoding="utf-8") as lines:
        pairs = [(line, *line.split("#")[0].partition(":")) for line in lines]
    return {name.split()[0]: (line, below.split()) for line, name, colon, below in pairs if colon}


def below(crates, names):
    """These crates and all that they stand on, in the order of crates.txt."""
    found, waiting = set(), list(names)
    while waiting:
        name = waiting.pop()
        if name in crates and name not in found:
            found.add(name)
            waiting += crates[name][1]
    return [name for name in crates if name in found]


def linked(one, other):
    """A second name for a file, or a copy where there can be none. Whoever writes in a copy of the repository puts a new file in such a one's place."""
    try:
        os.link(one, other)
    except OSError:
        shutil.copy2(one, other)


def kept(one, other):
    """As linked, of what `rt check` keeps: of that it replaces what was proved, and may write into the rest."""
    (linked if one.endswith(".oantt") else shutil.copy2)(one, other)


def begin(room, crates, names):
    """A repository of these crates alone, without the crates themselves."""
    os.makedirs(os.path.join(room, "crates"))
    with open(os.path.join(room, "crates.txt"), "w", encoding="utf-8") as file:
        file.writelines(crates[name][0].rstrip("\n") + "\n" for name in names)


def copy(here, there, names, way):
    """Copies what the prover reads of these crates to another repository."""
    for name in names:
        for part in PARTS:
            if os.path.isdir(os.path.join(here, "crates", name, part)):
                shutil.copytree(os.path.join(here, "crates", name, part), os.path.join(there, "crates", name, part), copy_function=way)


class Prover:
    """Of some crates a copy, the base, in which all are proved; and rooms for the edits, each of which begins with what was proved there."""

    def __init__(self, root, folder):
        self.root, self.folder, self.base = root, folder, os.path.join(folder, "base")
        self.crates = crates_of(root)

    def run(self, words, where):
        try:
            said = subprocess.run(["rt", *words], cwd=where, stdin=subprocess.DEVNULL, stdout=subprocess.PIPE, stderr=subprocess.STDOUT,
                                  timeout=LONGEST if words[0] == "check" else None, check=False)
        except FileNotFoundError:
            raise Bad("rt, the toolchain's command, is not found") from None
        except subprocess.TimeoutExpired:
            raise Bad("the prover had not answered after %d seconds" % LONGEST) from None
        return said.returncode, said.stdout.decode("utf-8", "replace")

    def fill(self, names):
        """Proves these crates as they stand, and those below. rt begins with what its checks kept of the same files, here or in another copy. What was said,
        and of each crate that is not proved the words of the summary."""
        every = below(self.crates, names)
        begin(self.base, self.crates, every)
        copy(self.root, self.base, every, shutil.copy2)
        jobs = ["--jobs", os.environ["RT_JOBS"]] if os.environ.get("RT_JOBS") else []
        _, said = self.run(["all", "check", *jobs], self.base)
        summary = dict(re.findall(r"(?m)^(\w+): (ok|failed \(-?\d+\)|not run, .*)$", said.rpartition("== summary")[2]))
        return said, {name: summary.get(name, "no word of it") for name in names if summary.get(name) != "ok"}

    def ask(self, crate, texts, name):
        """The prover's status and what it said of the crate with these texts in place of its own. They are put into a room of that name, which is left empty;
        rt notes where it kept something, so there are as few rooms as are used at a time."""
        room, every = os.path.join(self.folder, name), below(self.crates, [crate])
        shutil.rmtree(room, ignore_errors=True)
        begin(room, self.crates, every)
        copy(self.base, room, every, linked)
        for name in every:
            part, way = ("out/incremental", kept) if name == crate else ("out/rlib", linked)
            if os.path.isdir(os.path.join(self.base, "crates", name, part)):
                shutil.copytree(os.path.join(self.base, "crates", name, part), os.path.join(room, "crates", name, part), copy_function=way)
        for file, text in texts.items():
            path = os.path.join(room, "crates", crate, file)
            os.remove(path)
            with open(path, "w", encoding="utf-8") as opened:
                opened.write(text)
        try:
            return self.run(["check", "--jobs", "1"], os.path.join(room, "crates", crate))
        finally:
            shutil.rmtree(room, ignore_errors=True)


class Place:
    """A fact that the prover did not admit. Its words are what names it: a function and a goal of its proof, or a law's file and the law; a function's file of
    answers, where that was named, may stand in the function's place. And what was said."""

    def __init__(self, words, text):
        self.words, self.text = words, text[:SHOWN]

    def named(self, words):
        """Whether each of the words is one of its own; what a message says besides is no name, for it shows terms, in which any word may stand."""
        return set(words) <= set(self.words)


def function_of(crate, file):
    """The function whose proof stands in this file, by its path, as `crate::module::function`; none if it is a law's. A cycle has its folder with a +."""
    folder = OF_A_FUNCTION.match(file)
    return folder and "::".join([crate, *folder[1].replace("+", "").split("/")])


def places(crate, said):
    """The facts at which the prover refuses.

    An error in src/ or specs/ is none: there a text is not understood. An error that only says that something else was not admitted is none, and neither is a
    proof that cites what the edited code no longer has: such an edit shows nothing of the fact that it is meant to break. Goals that no file answers are told
    before the line of their function; where that has a file, they count only if it cites nothing that is gone, else they may be the same goals by other names.
    """
    found, shaped, left = [], set(), []
    for line in said.split("\n"):
        error, alone, goal, unproved = ERROR.match(line), ALONE.match(line), LEFT.match(line), NOT_PROVED.match(line)
        if error and error[1].startswith("proofs/") and error[2]:
            function = function_of(crate, error[1])
            if any(words in error[3] for words in SHAPE):
                shaped.add(function)
            elif not any(words in error[3] for words in FOLLOWS):
                found.append(Place([function, error[2], error[1]] if function else [error[1], error[2]], line))
        elif goal:
            left.append(Place(["", goal[1]], line))
        elif alone:
            found += [Place([alone[1], name], line) for name in re.findall(r"`([^`]+)`", alone[2])]
        elif unproved and unproved[1] not in shaped:
            found += [Place([unproved[1], place.words[1]], place.text) for place in left]
        if line.startswith("fn "):
            left = []
    return found


def unread(said):
    """The first line that says that a text of src/ or specs/ is not understood, or none."""
    for line in said.split("\n"):
        error = ERROR.match(line)
        if re.search(r"\berror\[[\w-]+\]", line):
            return line
        if error and error[1].startswith(("src/", "specs/")) and (not error[2] or UNREAD.search(re.sub(r"`[^`]*`", "", error[3]))):
            return line
    return None
