"""Wrong bodies and controls: how the edits of a crate are put into few checks, and what the prover says of each."""

import functools
import pathlib
import re
import shutil

from answers import searched
from crates import TOP
from edits import BadEdit, check
from goals import goals_of
from lanes import Lanes
from sources import functions_of
from twins import PROOF_FILES, Copy, may_go_together
from verdicts import PASSED, REFUSED, UNCLEAR, UNJUDGED, Said, failed_answers, judged, judged_again, refusals, shows_false

# How much is printed of a reason.
SHOWN = 400

# The proof of a function that is left out. The prover prints the goal at a hole, which takes half a second for a statement.
# So the hole is of any type.
UNPROVED = """use {module}.{{statement}}

unproved : {{A : Type 2}} → A
unproved = ?

pub {name}_spec : {{M : Type 1}} → statement M
{name}_spec {{M = m}} = unproved {{A = statement m}}
"""


class Bodies:
    """A crate's wrong bodies and controls, the functions that they change, a folder for the checks and their lanes.

    Edits are tried in one check of a copy of the crate, each in a function or a twin of its own. It proves the changed
    functions alone: every other function has no body there, and a hole in the place of its proof, so its callers take its
    contract as it is. Of a changed function only the goal is asked that its edit names, if it names one. What is not judged
    in company is tried alone, with all goals. If nothing failed except answers by hand that may fit no more, one more check
    has a search in their place. An edit that changes other lines than those of bodies is tried alone, and in a check of its
    whole crate if it changes no body."""

    def __init__(self, name, edits, room, lanes=None):
        self.name, self.edits, self.room, self.lanes = name, edits, room / name, lanes or Lanes()
        self.functions = functions_of(TOP / "crates" / name)
        self.targets, self.alone = {}, {it for it in edits if it.wanted == UNJUDGED}
        for edit in edits:
            self.targets[edit] = self.changed_by(edit)
        self.checks = 0

    @functools.cached_property
    def goals(self):
        """The goals of each function that an edit changes."""
        return goals_of(self.lanes.library(self.name), {it for its in self.targets.values() for it in its})

    def changed_by(self, edit):
        """The functions whose bodies an edit changes. If it changes other lines too, it is tried alone."""
        found = []
        for file, line in edit.places:
            at = [it for it in self.functions.values() if it.file == file and it.body <= line <= it.last]
            if not at:
                self.alone.add(edit)
            found += [it for it in at if it not in found]
        return found

    def packs(self):
        """The edits in as few checks as their functions let them be; those that must not be judged are alone."""
        at = {it: self.targets[it] if it not in self.alone else [] for it in self.edits}
        goes = lambda a, b: at[a] and at[b] and may_go_together(at[a], at[b])
        meets = {it: {other for other in self.edits if other is not it and not goes(it, other)} for it in self.edits}
        left = sorted(self.edits, key=lambda it: -len(meets[it]))
        return next(found for most in range(1, len(left) + 1) if (found := placed(left, meets, [], most)))

    def results(self, is_changed=True):
        """What became of each edit, as the tool prints it, one check after another; each check uses what those before kept."""
        for pack in self.packs():
            for edit, found in zip(pack, self.tried(pack) if is_changed else self.stays(pack)):
                yield edit.label(), *outcome(edit, *found)

    def leave_out(self, copy, kept):
        """Leaves out the bodies of all functions of a copy except these, which no caller sees, and puts holes in place of
        their proofs."""
        others = [it for it in copy.functions.values() if it not in kept]
        for file in {it.file for it in others}:
            without_bodies(copy.folder / file, [it for it in others if it.file == file])
        for it in others:
            at = copy.folder / "proofs" / it.folder()
            at.mkdir(parents=True, exist_ok=True)
            for name in PROOF_FILES:
                (at / name).unlink(missing_ok=True)
            shutil.rmtree(copy.folder / "proofs" / it.closures(), ignore_errors=True)
            module = f"Rattle.{self.name}.proofs.{it.path.replace('::', '.')}.Statement"
            (at / "Proof.antt").write_text(UNPROVED.format(module=module, name=it.name()), encoding="utf-8")

    def checked(self, pack, is_changed=True, failed=(), known=()):
        """Checks a copy with all edits of a pack, or as it stands, with a search in the place of those answers of an edit
        that failed: what was said, and the copy. Of edits whose verdict is known nothing else is found out, and nothing of
        other goals than those that they name. A check that was killed is done a second time."""
        for _ in range(2):
            self.checks += 1
            folder = self.room / f"{self.checks}-with-{len(pack)}"
            copy = Copy(self.name, folder, pack, self.targets, is_changed, known)
            for it in known:
                if copy.goals[it]:
                    copy.keep_to_goal(it, self.goals[self.targets[it][0]])
                if it.wanted == REFUSED:
                    copy.keep_from_offers(it)
            with self.lanes.lane(len(self.edits)):
                said = Said(*self.checked_now(copy, pack, failed), copy.aside)
            if said.status >= 0:
                break
        return said, copy

    def checked_now(self, copy, pack, failed):
        """The status of one check of a copy, and what was said."""
        changed = [it for edit in pack for it in copy.targets[edit]]
        instead = pack[0].words.get("checker")
        if not changed:
            return check(self.name, copy.folder, library=self.lanes.library, instead=instead)
        self.leave_out(copy, changed)
        for edit, at, names in failed:
            file = f"proofs/{copy.targets[edit][at].folder()}/Answers.antt"
            copy.write(file, searched(copy.text_of(file), *names))
        only = [word for it in changed for word in ("--only", it.path)]
        words = ["--allow-holes", "--short-goals", *only, "--incremental", str(self.room / "kept")]
        return check(self.name, copy.folder, *words, library=self.lanes.library, instead=instead)

    def tried(self, pack, is_last=False):
        """What became of each edit of a pack: its verdict, and what to say. What is not judged is tried a last time, alone."""
        known = [it for it in pack if it.wanted != UNJUDGED and not is_last]
        try:
            said, copy = self.checked(pack, known=known)
        except (BadEdit, OSError) as why:
            return self.apart(pack, {it: f"it can't be applied: {why}" if len(pack) == 1 else "" for it in pack})
        if said.stop:
            return self.apart(pack, {it: said.stop if len(pack) == 1 else uncompiled(said, it, copy) for it in pack})
        elsewhere = elsewhere_refused(said, pack, copy)
        found = {it: judge(it, said, copy) for it in pack}
        unclear = [it for it in pack if found[it][0] == UNCLEAR]
        if unclear:
            found.update(zip(unclear, self.tried_again(unclear, said, copy, found, known)))
        ends = {it: [REFUSED] if it in known and it.wanted == REFUSED else [REFUSED, PASSED] for it in pack}
        left = [it for it in pack if elsewhere or it not in unclear and found[it][0] not in ends[it]]
        if left and (len(pack) > 1 or known):
            found.update({it: self.tried([it], is_last=True)[0] for it in left})
        elif elsewhere:
            found = {it: (UNJUDGED, f"something else is refused: {elsewhere}") for it in pack}
        return [found[it] for it in pack]

    def apart(self, pack, why):
        """What became of the edits of a pack whose check judged nothing: of those to which this is due, and of the others
        without them. If it is due to none, each is tried alone."""
        left = [it for it in pack if not why[it]]
        packs = [left] if left and len(left) < len(pack) else [[it] for it in left]
        found = {edit: it for few in packs for edit, it in zip(few, self.tried(few))}
        return [found.get(it, (UNJUDGED, why[it])) for it in pack]

    def tried_again(self, unclear, before, copy, found, known):
        """What became of these edits in a check with a search in the place of each answer that failed in the check before."""
        failed = [(edit, at, names) for edit in unclear for at, it in enumerate(copy.targets[edit])
                  if (names := failed_answers(before, it))[0]]
        said, again = self.checked(unclear, failed=failed, known=[it for it in unclear if it in known])
        if said.stop:
            return [(UNJUDGED, f"with a search in the place of an answer, {said.stop}") for _ in unclear]
        return [judge(it, said, again, functools.partial(judged_again, before=found[it][1])) for it in unclear]

    def stays(self, pack):
        """The verdict on each edit of a pack in a check without the edits, where nothing may be refused."""
        said, copy = self.checked(pack, is_changed=False, known=pack)
        if said.stop:
            return [(UNJUDGED, said.stop) for _ in pack]
        return [judge(it, said, copy) for it in pack]


def of_edit(edit, copy):
    """The functions of a copy in which an edit may be refused: all if it changes no body."""
    return copy.targets[edit] or list(copy.functions.values())


def uncompiled(said, edit, copy):
    """What the compiler refuses in a function that an edit changes; nothing if there is none."""
    return next(filter(None, map(said.uncompiled, copy.targets[edit])), "")


def elsewhere_refused(said, pack, copy):
    """What was refused outside of the functions that the edits of a pack change; nothing if there is none."""
    functions = [it for edit in pack for it in of_edit(edit, copy)]
    other = [it for it in said.errors if not it.follows and not any(map(it.is_at, functions))]
    return other[0].shown() if other else ""


def judge(edit, said, copy, judged_by=judged):
    """The verdict on an edit, and what to say: refused if one function is that it changed, and judged if each is. An edit
    that names its goal must be refused there."""
    found = [judged_by(said, it, copy.text_of) for it in of_edit(edit, copy)]
    verdict, why = next(it for kind in (REFUSED, UNCLEAR, UNJUDGED, PASSED) for it in found if it[0] == kind)
    goal = copy.goals[edit]
    if verdict != REFUSED or not goal:
        return verdict, why
    named = [it for it in refusals(said, copy.targets[edit][0], copy.text_of) if f": {goal}: " in it]
    if not named:
        return UNJUDGED, f"it is refused at another goal than {goal}: {why}"
    if edit in copy.answered and not any(map(shows_false, named)):
        return UNJUDGED, f"nothing says that its goal is false: {named[0]}"
    return REFUSED, named[0]


def without_bodies(path, functions):
    """Leaves out the bodies of these functions of a file, except of those that the compiler runs. No line moves."""
    lines = path.read_text(encoding="utf-8").split("\n")
    for it in functions:
        if any(" const fn " in f" {line}" for line in lines[it.first : it.body + 1]):
            continue
        if it.body == it.last:
            lines[it.body] = re.sub(r"\{(\}| [^{]*\})$", "{ unreachable!() }", lines[it.body])
        else:
            lines[it.body + 1 : it.last] = ["unreachable!()", *[""] * (it.last - it.body - 2)]
    path.write_text("\n".join(lines), encoding="utf-8")


def placed(left, meets, packs, most):
    """These edits in `most` packs at most, after the edits that are in them, and none with one that it meets; or None."""
    if not left:
        return packs
    edit, rest = left[0], left[1:]
    for at in range(min(len(packs) + 1, most)):
        pack = packs[at] if at < len(packs) else []
        if meets[edit].isdisjoint(pack):
            if found := placed(rest, meets, [*packs[:at], [*pack, edit], *packs[at + 1 :]], most):
                return found
    return None


def outcome(edit, verdict, why):
    """Whether a verdict on an edit is the one that it must have, and what to say. Of a control that is right: None."""
    is_control, says, shown = "verdict" in edit.words, edit.words.get("says", ""), why[:SHOWN]
    if verdict == edit.wanted and says in why:
        return None if is_control else True, f"{'as it must be, ' if is_control else ''}{verdict}: {shown}"
    if is_control:
        return False, f"CONTROL FAILED: {verdict}, and it must be {edit.wanted} {says}: {shown}"
    return False, f"{verdict.upper()}: {shown}"


def misplaced(edits):
    """A result for each control of a crate that changes another function than it says, as the sources are read."""
    crate = Bodies(edits[0].crate, edits, pathlib.Path())
    for it in edits:
        at = " ".join(function.path for function in crate.targets[it])
        if at != it.words.get("at", at):
            yield it.label(), False, f"CONTROL FAILED: it changes {at or 'no function'}, as it is read"
