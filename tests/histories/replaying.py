"""Commands that are carried out once more, in the order of their places. Every reply must be the same again."""

from identity import identity_of, numbers_of
from model import winner
from serving import Differs

# The first words of the replies that are seen at least once.
GRANTED = {"ok", "term", "leader", "members", "terms", "groups"}


class Group:
    """A group as the commands leave it: its algorithm, its members in their order, and its terms."""

    def __init__(self, kind):
        self.kind = kind
        self.members = []
        self.rings = []
        self.leaders = []
        self.told = set()

    def who(self, member, reply):
        """Checks what a member of the last term said: workers decide when it knows."""
        if not self.rings:
            return "no no-term"
        term, ring = len(self.rings), self.rings[-1]
        if member not in numbers_of(ring):
            return "no not-in-term"
        if reply == f"undecided {term}" and (term, member) not in self.told:
            return reply
        self.leaders[-1] = winner(self.kind, ring)
        self.told.add((term, member))
        return f"leader {term} {self.leaders[-1]}"

    def terms(self, reply):
        """Checks the leaders of all terms: one that was named stays, and one may have been named since."""
        words = reply.split()
        if len(words) != len(self.rings) + 1:
            return None
        for number, word in enumerate(words[1:], 1):
            leader = winner(self.kind, self.rings[number - 1])
            if word == f"{number}:{leader}":
                self.leaders[number - 1] = leader
            elif word != f"{number}:-" or self.leaders[number - 1]:
                return None
        return reply


class Model:
    """The groups, from none at all."""

    def __init__(self):
        self.groups = {}

    def carry_out(self, line, reply):
        """The reply that the line has to get. Where workers decide, the given one if it may be so."""
        words = line.split()
        if words[0] == "groups":
            return " ".join(["groups", *self.groups])
        if words[0] == "create":
            if words[1] in self.groups:
                return "no exists"
            self.groups[words[1]] = Group(words[2])
            return "ok"
        group = self.groups.get(words[1])
        if group is None:
            return "no no-group"
        read = identity_of if words[0] == "join" else int
        return getattr(self, words[0])(group, *map(read, words[2:]), reply=reply)

    @staticmethod
    def join(group, member, reply):
        """A new member, last in the order."""
        if member.number in numbers_of(group.members):
            return "no member"
        group.members.append(member)
        return "ok"

    @staticmethod
    def leave(group, number, reply):
        """A member leaves."""
        if number not in numbers_of(group.members):
            return "no not-member"
        group.members = [member for member in group.members if member.number != number]
        return "ok"

    @staticmethod
    def start(group, reply):
        """A new term on the present members."""
        if not group.members:
            return "no empty"
        if len(group.rings) == 1000:
            return "no term-limit"
        group.rings.append(tuple(group.members))
        group.leaders.append(None)
        return f"term {len(group.rings)}"

    @staticmethod
    def members(group, reply):
        """The members in their order."""
        return " ".join(["members", *map(str, group.members)])

    @staticmethod
    def terms(group, reply):
        """The leader of each term, or none."""
        return group.terms(reply)

    @staticmethod
    def who(group, member, reply):
        """What a member of the last term knows."""
        return group.who(member, reply)


def check(entries):
    """Carries out all that clients were told, in the order of the places."""
    model = Model()
    for place in sorted(entries):
        number, line, reply = entries[place]
        wanted = model.carry_out(line, reply)
        if reply != wanted:
            raise Differs(f"at {place} client {number} was told {reply!r} to {line!r}, and not {wanted!r}")
    lacking = GRANTED - {reply.split()[0] for _, _, reply in entries.values()}
    if lacking:
        raise Differs(f"of {len(entries)} replies none begins with {' or '.join(sorted(lacking))}")
