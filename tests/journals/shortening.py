"""What a start makes of the changes that it finds: it keeps them, or puts a shorter list in their place. A running
service does so too, when its journal is long.

The shorter list leads to the same groups, terms, leaders and informed members. Of each group it has the creation, what
each term needs, and what makes the present members of those of the last term. A start takes it if it has at most half
as many changes as were found.
"""

from journals.changes import life_of, lines_after_first, text_of_changes
from serving import Differs

# How many bytes of text a journal has at least when a running service rewrites it.
LEAST = 1 << 18


class Shorter:
    """A group, with the ring of each term and the news of it."""

    def __init__(self, name, kind):
        self.name, self.kind, self.members, self.terms = name, kind, [], []

    def take(self, word, rest):
        """Takes a change of the group."""
        if word == b"join":
            self.members.append(rest[0])
        elif word == b"leave":
            self.members = [member for member in self.members if number_of(member) != rest[0]]
        elif word == b"start":
            self.terms.append((list(self.members), {}))
        else:
            self.terms[-1][1][rest[1]] = rest[2]

    def changes(self):
        """Returns the shorter list of changes."""
        made, members = [b"create %s %s" % (self.name, self.kind)], []
        for number, (ring, news) in enumerate(self.terms, 1):
            made += self.moves(members, ring)
            made.append(b"start %s" % self.name)
            made += [b"know %s %d %s %s" % (self.name, number, member, news[member])
                     for member in ring if member in news]
            members = ring
        return made + self.moves(members, self.members)

    def moves(self, before, after):
        """Returns the leaves and joins by which the members before become those after. A member stays if it is the next
        of those after, in their order."""
        leaves, staying = [], 0
        for member in before:
            if staying < len(after) and member == after[staying]:
                staying += 1
            else:
                leaves.append(b"leave %s %s" % (self.name, number_of(member)))
        return leaves + [b"join %s %s" % (self.name, member) for member in after[staying:]]


def number_of(member):
    """Returns the word of a member's number."""
    return member.partition(b"/")[0]


def shorter(changes):
    """Returns the shorter list of changes that leads to the same groups as these."""
    groups = {}
    for change in changes:
        word, name, *rest = change.split(b" ")
        if word == b"create":
            groups[name] = Shorter(name, rest[0])
        else:
            groups[name].take(word, rest)
    return [change for group in groups.values() for change in group.changes()]


def changes_at_start(found):
    """Returns the changes in a journal after a start that found these changes."""
    few = shorter(found)
    return few if 2 * len(few) <= len(found) else found


def see_start(found, text):
    """Sees that a text, of a later life, begins as a start over `found` leaves it. The answer is this begin. There may
    have been other starts between, which found that their port is in use."""
    if life_of(text) <= life_of(found):
        raise Differs(f"a start over a journal of life {life_of(found)} leaves life {life_of(text)}")
    changes = [line.rpartition(b" #")[0] for line in lines_after_first(found).splitlines()]
    begun = text_of_changes(changes_at_start(changes), life_of(text))
    if not text.startswith(begun):
        raise Differs("a start left other changes in the journal than it has to")
    return begun


def see_rewriting(found, text):
    """Sees that a text, of the same life, begins as a running service leaves it that rewrites a journal with the text
    `found`. The answer is this begin."""
    if life_of(text) != life_of(found):
        raise Differs(f"a journal of life {life_of(found)} was rewritten with life {life_of(text)}")
    changes = [line.rpartition(b" #")[0] for line in lines_after_first(found).splitlines()]
    begun = text_of_changes(shorter(changes), life_of(text))
    if not text.startswith(begun):
        raise Differs("a journal was rewritten by other changes than those that lead to its groups")
    if len(found) < LEAST or 2 * len(begun) > len(found):
        raise Differs(f"a journal of {len(found)} bytes was rewritten with {len(begun)} bytes")
    return begun
