"""The goals of a proved function, and how all but one of them are set aside.

The prover asks for each goal of a function by a name, and the library of its crate lists the names. A goal has an answer by
hand, or the prover searches for one. A goal that is set aside has a hole for its answer: nothing is searched, and nothing is
proved.
"""

import json
import re

from answers import blocks_of, searched, with_rules

# The hole is of any type, since the prover prints the goal at a hole, and takes its time for that.
UNPROVED = "unproved {ℓ} : {A : Type ℓ} → A\nunproved = ?\n"
RETURNS = re.compile(r"(returns\S*?)(?:-clause-(\w+))?")


def asked(value):
    """The goals in a part of what a library says of a proof: those that the prover does not settle by itself, and none that
    is made of those of its clauses."""
    if isinstance(value, dict) and "answer" in value and "named" in value:
        return [] if value.get("evidence") or value.get("joins") else [value["answer"]]
    inside = value.values() if isinstance(value, dict) else value if isinstance(value, list) else []
    return [name for it in inside for name in asked(it)]


def goals_of(library, functions):
    """The names of the goals of these functions, by the library of their crate; none if there is no such library."""
    listed, found = library / "lang/antt/made.json", {it: [] for it in functions}
    if not listed.is_file():
        return found
    places = {f'"proofs/{it.folder()}/Proof"\n': it for it in functions}
    with open(listed, encoding="utf-8") as lines:
        for line in lines:
            if line in places:
                found[places[line]] = asked(json.loads(next(lines)))
    return found


def answered_by(text):
    """The names of the goals that a file of answers answers."""
    return [name for name, lines in blocks_of(text) if lines[0] == f"pub {name} : goal.{name}"]


def place_of(goal):
    """The place of which a goal is one clause, or an empty text."""
    return goal.rpartition("-clause-")[0]


def set_aside(text, goal, goals):
    """The text of a file of answers in which each other goal than this one has a hole for its answer: each of these, and
    each that was answered. All clauses of another place have one hole. And the names of what has a hole."""
    own, answered = place_of(goal), [it for it in answered_by(text) if it != goal]
    others = [it for it in [*answered, *goals] if it not in (goal, own) and place_of(it) != goal]
    aside = list(dict.fromkeys(it if place_of(it) in ("", own) else place_of(it) for it in others))
    kept = [line for name, lines in blocks_of(text) if name not in answered for line in lines]
    holes = [line for it in aside for line in (f"pub {it} : goal.{it}", f"{it} = unproved", "")]
    return "\n".join([*kept, "", UNPROVED, *holes] if holes else kept), aside


def answered(text, goal, answer):
    """The text of a file of answers in which a goal has this answer; or a search over the lemmas of the one that it has."""
    if answer == "search":
        return searched(text, {goal: False})
    kept = [line for name, lines in blocks_of(text) if name != goal for line in lines]
    return with_rules("\n".join([*kept, "", f"pub {goal} : goal.{goal}", f"{goal} {answer}", ""]))
