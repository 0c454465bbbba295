"""Edits of the sources that the prover must judge: their files, and a check of a copy of a crate."""

import subprocess

from crates import PARTS, TOP, built_by_rt, kit, words_of
from verdicts import PASSED, REFUSED, UNJUDGED

# The folders of a crate with edits, and what an edit of each is called.
KINDS = {"wrong": "wrong", "controls": "control", "laws": "law", "must-fail": "must-fail"}


class BadEdit(Exception):
    """An edit that can't be applied."""


class Edit:
    """The lines `file: PATH`, and then `old: TEXT` and `new: TEXT` in pairs, of an edit's file.

    Each old text is in its file once, as the pairs before it leave that. Or a line `after: TEXT` before it names a text
    that is there once, and then the first old text after that is meant. `places` has the file and the number of the line
    of each, from 0; `texts` the files as the edit alone leaves them; `words` the rest of a line by any other word."""

    def __init__(self, path):
        self.name, self.crate, self.kind = path.stem, path.parts[-3], KINDS[path.parts[-2]]
        self.folder = TOP / "crates" / self.crate
        self.words, self.places, self.pairs, self.texts = {}, [], [], {}
        file = old = None
        after = ""
        for line in path.read_text(encoding="utf-8").splitlines():
            word, _, rest = line.partition(":")
            rest = rest.removeprefix(" ")
            if word == "file":
                file = rest
            elif word == "after":
                after = rest
            elif word == "old":
                old = rest
            elif word == "new":
                self.add(file, after, old, rest)
                after = ""
            else:
                self.words[word] = rest
        if not self.pairs:
            raise BadEdit("it has no 'old:' and 'new:' pair")

    def add(self, file, after, old, new):
        """Takes a pair, whose place is looked up in the text that those before it leave."""
        if not file or not old or not file.startswith(tuple(f"{part}/" for part in PARTS)):
            raise BadEdit("a pair names no file below src, specs or proofs, or no old text")
        if file not in self.texts:
            self.texts[file] = (self.folder / file).read_text(encoding="utf-8")
        text = self.texts[file]
        at = place_of(text, after, old, file)
        self.places.append((file, text[:at].count("\n")))
        self.pairs.append((file, after, old, new))
        self.texts[file] = text[:at] + new + text[at + len(old) :]

    def label(self):
        """What it is called where the tools say what became of it."""
        return f"{self.kind} {self.crate}/{self.name}"

    def apply(self, folder):
        """Changes a copy of the crate."""
        for file, after, old, new in self.pairs:
            text = (folder / file).read_text(encoding="utf-8")
            at = place_of(text, after, old, file)
            (folder / file).write_text(text[:at] + new + text[at + len(old) :], encoding="utf-8")


def place_of(text, after, old, file):
    """Where an old text is: once in the whole text, or first after the one `after` text."""
    once = after or old
    if text.count(once) != 1:
        raise BadEdit(f"an '{'after' if after else 'old'}:' text stands in {file} {text.count(once)} times, and not once")
    at = text.find(old, text.index(after) + len(after)) if after else text.index(old)
    if at < 0:
        raise BadEdit(f"an 'old:' text isn't in {file} behind its 'after:' text")
    return at


def read_edits(names, folder="wrong"):
    """The edits in the folders of this name, by crate: of these crates, or of all if none is named. And a result for each
    that can't be applied."""
    found, bad = {}, []
    for path in sorted(TOP.glob(f"crates/*/{folder}/*.edit")):
        if names and path.parts[-3] not in names:
            continue
        try:
            edit = Edit(path)
            edit.wanted = edit.words.get("verdict", REFUSED)
            if edit.wanted not in (REFUSED, PASSED, UNJUDGED):
                raise BadEdit(f"its verdict is none: {edit.wanted}")
            found.setdefault(edit.crate, []).append(edit)
        except (BadEdit, OSError) as why:
            bad.append((f"{KINDS[folder]} {path.parts[-3]}/{path.stem}", False, f"BAD EDIT: {why}"))
    return found, bad


def check(crate, folder, *words, library=built_by_rt, instead=None):
    """Checks a copy of a crate over the libraries at these places: the status, and what was said. Other programs go first.
    A command of the shell may run in place of the prover."""
    command = ["sh", "-c", instead] if instead else [kit() / "bin/rattle", "check", *words_of(crate, library), *words]
    ran = subprocess.run(["nice", *command], cwd=folder,
                         stdin=subprocess.DEVNULL, stdout=subprocess.PIPE, stderr=subprocess.STDOUT,
                         text=True, errors="replace", check=False)
    return ran.returncode, ran.stdout
