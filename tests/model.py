"""The replies that a group may give, and whether replies to several clients fit one history.

A command is a tuple of words without the group's name, as ("leave", 3). A member that joins is an `Identity`;
all others are named by their numbers. A reply is a line of text. Members may come to know the leader between
any two commands. So a state does not have the members that know, but those that are known to know. Of an
earlier term it has whether a leader was seen, seen to be missing, or neither.
"""

import functools
from typing import NamedTuple

from identity import numbers_of

MOST_MEMBERS = 256
MOST_TERMS = 1000
NOBODY = "-"


class Group(NamedTuple):
    """A group as far as replies have shown it. For each term that was started `rightful` has who alone
    may lead it, and `leaders` whether that was seen: None where nothing was, NOBODY, or the leader."""

    kind: str
    members: tuple = ()
    rightful: tuple = ()
    leaders: tuple = ()
    ring: tuple = ()
    informed: frozenset = frozenset()

    def __hash__(self):
        # (of the long lists of terms the length alone: groups are put into sets all the time)
        return hash((self.members, len(self.leaders), self.ring, self.informed))


@functools.lru_cache(maxsize=4096)
def winner(kind, ring):
    """Who leads a ring: by the rounds of Peterson's algorithm, else the greatest."""
    if kind != "peterson":
        return max(ring)
    places = list(enumerate(ring))
    while len(places) > 1:
        before = [places[k - 1][1] for k in range(len(places))]
        earlier = [places[k - 2][1] for k in range(len(places))]
        places = [(place, value) for (place, own), value, other in zip(places, before, earlier)
                  if value > own and value > other]
    position, _ = places[0]
    return ring[position] if len(places) == 1 else None


def after(group, command, reply):
    """The group after a command that was answered so, or None where it can't be answered so."""
    return STEPS[command[0]](group, reply, *command[1:])


def join(group, reply, member):
    if member.number in numbers_of(group.members):
        return group if reply == "no member" else None
    if len(group.members) == MOST_MEMBERS:
        return group if reply == "no ring-full" else None
    return group._replace(members=(*group.members, member)) if reply == "ok" else None


def leave(group, reply, number):
    if number not in numbers_of(group.members):
        return group if reply == "no not-member" else None
    rest = tuple(it for it in group.members if it.number != number)
    return group._replace(members=rest) if reply == "ok" else None


def start(group, reply):
    if not group.members:
        return group if reply == "no empty" else None
    if len(group.leaders) == MOST_TERMS:
        return group if reply == "no term-limit" else None
    if reply != f"term {len(group.leaders) + 1}":
        return None
    return group._replace(rightful=(*group.rightful, winner(group.kind, group.members)),
                          leaders=(*group.leaders, None), ring=group.members, informed=frozenset())


def who(group, reply, number):
    term = len(group.leaders)
    if not term:
        return group if reply == "no no-term" else None
    if number not in numbers_of(group.ring):
        return group if reply == "no not-in-term" else None
    if reply == f"undecided {term}":
        return group if number not in group.informed else None
    leader = group.rightful[-1]
    if reply != f"leader {term} {leader}":
        return None
    if number in group.informed:
        return group
    return group._replace(leaders=(*group.leaders[:-1], leader), informed=group.informed | {number})


def members(group, reply):
    return group if reply == " ".join(["members", *map(str, group.members)]) else None


def terms(group, reply):
    name, *words = reply.split(" ")
    if name != "terms" or len(words) != len(group.leaders):
        return None
    leaders, rightful = list(group.leaders), list(group.rightful)
    for place, (word, known) in enumerate(zip(words, group.leaders)):
        if word == f"{place + 1}:{rightful[place]}" and known != NOBODY:
            leaders[place] = rightful[place]
        elif word != f"{place + 1}:-" or known not in (None, NOBODY):
            return None
        elif place + 1 < len(words):
            # (who could have led such a term is forgotten, so that groups that differ in this alone are one)
            leaders[place], rightful[place] = NOBODY, None
    if leaders == list(group.leaders):
        return group
    return group._replace(leaders=tuple(leaders), rightful=tuple(rightful))


STEPS = {"join": join, "leave": leave, "start": start, "who": who, "members": members, "terms": terms}


class Call(NamedTuple):
    """A command and its reply, with the moments between which it was carried out."""

    begun: int
    ended: int
    command: tuple
    reply: str


def unexplained(kind, calls):
    """The first call that fits no order of the calls in which each is carried out between its moments, or
    None where one order explains all of them."""
    moments = [(call.begun, 0, number) for number, call in enumerate(calls)]
    moments += [(call.ended, 1, number) for number, call in enumerate(calls)]
    moments.sort()
    waiting, pictures = set(), {(Group(kind), frozenset())}
    for _, is_end, number in moments:
        if not is_end:
            waiting.add(number)
            continue
        pictures = pictures_with(calls, waiting, number, pictures)
        if not pictures:
            return calls[number]
        waiting.remove(number)
    return None


def pictures_with(calls, waiting, number, pictures):
    """All pictures in which this call is carried out. A picture is a group, and which of the calls that
    wait for their reply it has."""
    found, seen, left = set(), set(pictures), list(pictures)
    while left:
        group, done = left.pop()
        if number in done:
            found.add((group, done - {number}))
            continue
        for other in waiting - done:
            changed = after(group, calls[other].command, calls[other].reply)
            if changed is None:
                continue
            if changed is group:
                # (what changes nothing is carried out at once, since that shuts out nothing)
                more = (group, done | {other})
                if more not in seen:
                    seen.add(more)
                    left.append(more)
                break
        else:
            for other in waiting - done:
                changed = after(group, calls[other].command, calls[other].reply)
                if changed is not None and (more := (changed, done | {other})) not in seen:
                    seen.add(more)
                    left.append(more)
    return found
