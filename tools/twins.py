"""Copies of a crate in which the prover judges several edits at a time.

An edit of one function is made in a twin: a copy of the function, with its contract and its proof, under a name of its own.
Nothing calls a twin. So one check judges all edits of a function, and what it does first is done once: it reads the
libraries and what the crate states. A function that a trait names has no twin, and an edit of it is made in its place.

`goal: NAME` in an edit names the goal that the prover must refuse it for. Its twin promises the clause of that goal and one
more, since the prover names goals by their clauses only if there are several. It promises nothing if the goal lies within
the body. The other goals are set aside, as goals.py says; `aside: NAME ..` names those that only the wrong body has.
`answer: TEXT` is an answer to its goal, as `c = search (rules)`, which must show that the goal is false; `answer: search` is
a search in place of the answer by hand. Where that answer cites another one to a clause, the twin keeps all clauses.

An edit that is tried a last time, alone, is asked for all goals. Then a twin keeps all clauses also where an answer by hand
is for several of them, or is cited.

The prover offers answers for the open goals of a function with which nothing else is wrong, and looks for them as long as
for the verdict. So a function that is to be refused has one answer more, for no goal.
"""

import re

from answers import WORD, blocks_of
from crates import copy_of
from goals import RETURNS, answered, answered_by, set_aside
from sources import FN, functions_of
from verdicts import NO_GOAL

PROOF_FILES = ("Answers.antt", "Invariants.antt", "Proof.antt")
ROOT = "src/main.rt"
ENSURES = re.compile(r" *ensures (?:(\w+) )?\{")


def has_twin(functions):
    """Whether an edit that changes the bodies of these functions is made in a twin."""
    return len(functions) == 1 and functions[0].may_have_twin


def may_go_together(one, other):
    """Whether one check can judge two edits that change the bodies of these functions."""
    return has_twin(one) or has_twin(other) or not any(it in other for it in one)


def promising(lines, kept):
    """The lines of a function's head in which it promises these clauses alone."""
    indent, found, is_kept = len(lines[0]) - len(lines[0].lstrip()) + 4, [], True
    for line in lines:
        if len(line) - len(line.lstrip()) <= indent:
            named = ENSURES.match(line)
            is_kept = not named or named[1] in kept
        found += [line] if is_kept else []
    return found


def stay_together(text, goal=""):
    """Whether one of these answers is for all clauses at a place where the function returns, or another one cites it; where
    one goal alone is asked for, whether its answer cites another one of these."""
    blocks = blocks_of(text)
    returns = [at for name, _ in blocks if (at := RETURNS.fullmatch(name))]
    cited = [(name, word) for name, lines in blocks for line in lines for word in WORD.findall(line)]
    if goal:
        return any((goal, at[0]) in cited for at in returns if at[0] != goal)
    return any(not at[2] or any(word == at[0] != name for name, word in cited) for at in returns)


def answering(text, kept):
    """The answers of a function that promises these clauses alone."""
    found = []
    for name, lines in blocks_of(text):
        returns = RETURNS.fullmatch(name)
        found += lines if not returns or returns[2] in kept else []
    return "\n".join(found)


class Twin:
    """A function with an edit of it, or as it stands, in a copy of its crate. If it is alone with its goal, no other goal is
    asked for."""

    def __init__(self, function, edit, is_changed, answers, is_alone):
        self.of, self.edit, self.is_changed = function, edit, is_changed
        self.name, self.path = f"{function.name()}_{edit.name}", f"{function.path}_{edit.name}"
        self.goal, self.kept = edit.words.get("goal", ""), []
        returns = RETURNS.fullmatch(self.goal)
        # the goal of a function's one clause has no name of a clause, and the function keeps that clause
        together = stay_together(answers, self.goal if is_alone else "")
        self.is_whole = not self.goal or returns and not returns[2] or together
        if returns:
            head = edit.texts[function.file].split("\n")[function.first : function.body]
            others = [at[1] for line in head if (at := ENSURES.match(line)) and at[1] != returns[2]]
            self.kept = [returns[2], *others[:1]]

    def lines(self, own):
        """Its lines, where these are those of the file without the edit."""
        it = self.of
        text = self.edit.texts[it.file].split("\n") if self.is_changed else own
        at = next(at for at in range(it.first, it.body + 1) if FN.match(text[at]))
        head = [re.sub(rf"\bfn {it.name()}\b", f"fn {self.name}", text[at], count=1), *text[at + 1 : it.body + 1]]
        if not self.is_whole:
            head = promising(head, self.kept)
        return [*text[it.first : at], *head, *text[it.body + 1 : it.last + 1]]

    def may_ask(self, goal):
        """Whether the prover may ask for a goal of its function: not if that is of a clause that it does not promise."""
        returns = RETURNS.fullmatch(goal)
        return self.is_whole or not returns or not returns[2] or returns[2] in self.kept

    def proof_of(self, name, text):
        """The text of a file of its proof, where this is the function's."""
        for place in (self.of.folder(), self.of.closures()):
            named = re.escape(place.replace("/", "."))
            text = re.sub(rf"(\.proofs\.{named})(?=[.\s;])", rf"\1_{self.edit.name}", text)
        if not self.is_whole and name == "Answers.antt":
            text = answering(text, self.kept)
        return text.replace(f"{self.of.name()}_spec", f"{self.name}_spec")


class Copy:
    """A copy of a crate with the edits of a pack, or with the functions that they change, as they stand. It has the functions
    of the copy; by `targets` those that each edit changes there, and by `goals` the goal that each edit names. `aside` are
    the goals that are set aside, each with the file of its answer, and `answered` the edits whose own answer is tried."""

    def __init__(self, crate, folder, pack, targets, is_changed, known=()):
        self.crate, self.folder, self.is_changed, paths, twins = crate, folder, is_changed, {}, []
        copy_of(crate, folder)
        for edit in pack:
            paths[edit] = [it.path for it in targets[edit]]
            if has_twin(targets[edit]):
                answers = folder / "proofs" / targets[edit][0].folder() / "Answers.antt"
                text = answers.read_text(encoding="utf-8") if answers.exists() else ""
                twins.append(Twin(targets[edit][0], edit, is_changed, text, edit in known))
                paths[edit] = [twins[-1].path]
            elif is_changed:
                edit.apply(folder)
        self.goals = {it: it.words.get("goal", "") for it in pack}
        self.twins, self.aside, self.answered = {it.edit: it for it in twins}, set(), set()
        # the last of a file first, so that no line moves before its turn
        for it in sorted(twins, key=lambda it: -it.of.last):
            self.add(it)
        self.be_library(paths.values())
        self.functions = functions_of(folder)
        self.targets = {edit: [self.functions[it] for it in paths[edit]] for edit in pack}

    def text_of(self, file):
        """The text of a file of the copy."""
        return (self.folder / file).read_text(encoding="utf-8")

    def write(self, file, text):
        """Writes a file of the copy."""
        (self.folder / file).parent.mkdir(parents=True, exist_ok=True)
        (self.folder / file).write_text(text, encoding="utf-8")

    def add(self, twin):
        """Adds a twin with the proofs of its function and of its closures."""
        it, own = twin.of, self.text_of(twin.of.file).split("\n")
        self.write(it.file, "\n".join([*own[: it.last + 1], *twin.lines(own), *own[it.last + 1 :]]))
        for place in (it.folder(), it.closures()):
            proofs = self.folder / "proofs" / place
            files = map(proofs.joinpath, PROOF_FILES) if place == it.folder() else proofs.rglob("*.antt")
            for file in filter(lambda file: file.is_file(), files):
                text = twin.proof_of(file.name, file.read_text(encoding="utf-8"))
                self.write(f"proofs/{place}_{twin.edit.name}/{file.relative_to(proofs)}", text)

    def keep_to_goal(self, edit, goals):
        """Sets aside all goals but the one that an edit names, where these are those of the first function that it changes.
        That goal gets the answer that the edit has for it. If the true body is to be checked, an answer by hand stays, and a
        goal that this body does not have gets none."""
        function, goal, twin = self.targets[edit][0], self.goals[edit], self.twins.get(edit)
        others = edit.words.get("aside", "").split() if self.is_changed else []
        asked = [it for it in [*goals, *others] if not twin or twin.may_ask(it)]
        text, aside = set_aside(self.answers_of(function), goal, asked)
        answer = edit.words.get("answer", "")
        if answer and (self.is_changed or goal in goals and goal not in answered_by(text)):
            text = answered(text, goal, answer)
            self.answered.add(edit)
        file = f"proofs/{function.folder()}/Answers.antt"
        self.write(file, text)
        self.aside.update((file, name) for name in aside)

    def answers_of(self, function):
        """The text of a function's file of answers, or of one without an answer."""
        file = self.folder / f"proofs/{function.folder()}/Answers.antt"
        if file.exists():
            return file.read_text(encoding="utf-8")
        return f"use Rattle.{self.crate}.proofs.{function.path.replace('::', '.')}.Goals as goal\n"

    def keep_from_offers(self, edit):
        """Gives the functions that an edit changes an answer for no goal."""
        for it in self.targets[edit]:
            proofs = f"proofs/{it.folder()}"
            if (self.folder / proofs / "Proof.antt").exists():
                continue
            answer = f"\npub {NO_GOAL} : goal.{NO_GOAL}\n{NO_GOAL} c = c\n"
            self.write(f"{proofs}/Answers.antt", self.answers_of(it) + answer)

    def be_library(self, changed):
        """Makes a program a library, unless its `main` is changed: its check links nothing, and takes a quarter of the time."""
        if (self.folder / ROOT).exists() and all(paths and "main" not in paths for paths in changed):
            self.write(ROOT, re.sub(r"^((?:pub )?fn main)\b", r"\1_of_it", self.text_of(ROOT), flags=re.M))
