"""Wrong algorithms: table and code changed alike, so that a law alone can refuse them.

Each file crates/CRATE/laws/NAME.edit is one. Its line `law: LAW ..` names the laws of crates/ring_election/specs/Laws.antt
that refuse it, and `lemma: LEMMA ..` the lemmas of these laws' proofs at which the prover must refuse it. Other errors may
only follow from these. Each law must have a wrong algorithm. The other lines are those of any edit.
"""

import re

from crates import TOP, copy_of
from edits import BadEdit, check, read_edits
from verdicts import Said, judged_at

LAWS = TOP / "crates" / "ring_election" / "specs" / "Laws.antt"
LAW = re.compile(r"^  pub (\w+) : ", re.M)
# They are checked before wrong bodies: each check is of a whole crate, and those of a crate come one after another.
WEIGHT = 1000


def named(edit, word):
    """The names in a line of an edit that begins with this word."""
    return set(edit.words.get(word, "").split())


def read_laws(names):
    """The wrong algorithms of these crates, or of all, by crate; and a result for each that can't be applied, and for each
    law that has none in any crate."""
    laws = set(LAW.findall(LAWS.read_text(encoding="utf-8")))
    every, bad = read_edits([], "laws")
    broken = set()
    for it in sum(every.values(), []):
        broken |= named(it, "law")
        if not named(it, "law") or not named(it, "law") <= laws or not named(it, "lemma"):
            every[it.crate].remove(it)
            bad.append((it.label(), False, "BAD EDIT: it names no law or another one, or no lemma"))
    bad = [it for it in bad if not names or it[0].split(" ")[1].split("/")[0] in names]
    bad += [(f"law {law}", False, "NO WRONG ALGORITHM") for law in sorted(laws - broken)]
    return {name: edits for name, edits in every.items() if edits and (not names or name in names)}, bad


class Algorithms:
    """A crate's wrong algorithms, a folder for their checks and the lanes that these take."""

    def __init__(self, name, edits, room, lanes):
        self.name, self.edits, self.room, self.lanes = name, edits, room / f"{name}-laws", lanes

    def results(self, _is_changed):
        """What became of each wrong algorithm, as the tool prints it, each checked over what the checks before it kept."""
        for edit in self.edits:
            yield edit.label(), *self.tried(edit)

    def tried(self, edit):
        """Whether the prover refuses a wrong algorithm at its lemmas and nowhere else, and what to say."""
        folder = self.room / edit.name
        try:
            copy_of(self.name, folder)
            edit.apply(folder)
        except (BadEdit, OSError) as why:
            return False, f"BAD EDIT: {why}"
        with self.lanes.lane(WEIGHT):
            ran = check(self.name, folder, "--incremental", str(self.room / "kept"), library=self.lanes.library)
        return judged_at(named(edit, "lemma"), Said(*ran), ran[1])
