"""Lies about what clients were told, each of which the judge must report."""

from etcd.judging import PLACES, judge
from identity import Identity
from serving import Differs


def first_with(told, word):
    """Where the first reply is that begins so."""
    return next(place for place, it in enumerate(told) if it.reply.startswith(word))


def lost_change(told):
    """A change that the journal does not have."""
    last = told[-1]
    return [*told, last._replace(place=last.place + 1, command=("join", Identity(0, 4000000000)), reply="ok")]


def same_place(told):
    """Two replies of one place."""
    at = first_with(told, "ok")
    return [*told, told[at]]


def two_leaders(told):
    """Another leader of a term."""
    at = first_with(told, "leader ")
    _, term, leader = told[at].reply.split(" ")
    other = "7" if leader != "7" else "8"
    return [*told[:at], told[at]._replace(reply=f"leader {term} {other}"), *told[at + 1:]]


def other_order(told):
    """Two terms of a group, the later one first."""
    begun = {}
    for place, it in enumerate(told):
        if it.reply.startswith("term "):
            before = begun.setdefault(it.name, place)
            if before != place and told[before].place // PLACES == it.place // PLACES:
                earlier, later = told[before], it
                told = [*told]
                told[before], told[place] = (later._replace(place=earlier.place), earlier._replace(place=later.place))
                return told
            begun[it.name] = place
    raise StopIteration


def early_place(told):
    """A change at the first place of its life, which had other changes then."""
    ok = [place for place, it in enumerate(told) if it.reply == "ok" and it.command[0] == "join"]
    it = told[ok[-1]]
    first = it.place // PLACES * PLACES + 1
    if any(other.place == first for other in told):
        first = min(other.place for other in told if other.place > first) - 1
    return [*told[:ok[-1]], it._replace(place=first), *told[ok[-1] + 1:]]


LIES = (lost_change, same_place, two_leaders, other_order, early_place)


def see_lies(name, events, told):
    """Sees that each lie is reported. The answer is how many."""
    told = sorted(told)
    for lie in LIES:
        try:
            changed = lie(told)
        except StopIteration:
            raise Differs(f"{lie.__name__}: too few replies were told to try it") from None
        try:
            judge(name, events, changed)
        except Differs:
            continue
        raise Differs(f"{lie.__name__}: this lie is not reported")
    return len(LIES)
