"""Whether what clients were told fits the journal that etcd had at each moment.

What was told is a `Told`: the place of the reply, the group's name and the command, and the reply. Places say in which
life a reply was made. Put in the order of their places, the replies of a life must be explained by the changes that the
journal had then, one after another.
"""

from typing import NamedTuple

from etcd.log import texts_of
from journals.changes import History, history_of, life_of, line_of, lines_after_first
from journals.shortening import shorter
from serving import Differs, short

# How many places each life has.
PLACES = 1 << 44
# The replies that leave nothing in the history, and have no place.
WITHOUT = ("no bad-line", "no no-memory", "no seat-spent")


class Told(NamedTuple):
    """A reply that a client was told."""

    place: int
    name: str
    command: tuple
    reply: str


class Judge:
    """Reads a journal text by text, and sees that each reply fits it."""

    def __init__(self, told):
        self.lives, self.leaders, self.life = by_life(told), {}, 0
        self.history, self.text, self.first, self.found = History(), b"", 0, 0
        for reply in told:
            self.hear(reply.name, reply.reply)

    def hear(self, name, reply):
        """Takes a reply, and sees that no other member was named the leader of a term."""
        first, *rest = reply.split(" ")
        named = [rest] if first == "leader" else [word.split(":") for word in rest] if first == "terms" else []
        for term, leader in named:
            other = self.leaders.setdefault((name, term), leader) if leader != "-" else leader
            if other != leader:
                raise Differs(f"{name}: term {term} is led by {other} and by {leader}")

    def read(self, texts):
        """Takes all texts that counted."""
        for text in texts:
            if text.begun:
                self.begin(text.begun)
                self.history.read(text.whole())
                self.text = text.whole()
        self.end_life()
        if left := sorted(self.lives):
            raise Differs(f"life {left[0]} told {len(self.lives[left[0]])} replies, and is not in the journal")
        for (name, term), leader in self.leaders.items():
            group = self.history.group_at(name, self.history.count)
            if group is None or len(group.leaders) < int(term) or str(group.leaders[int(term) - 1]) != leader:
                raise Differs(f"{name}: that {leader} leads term {term} was told, and is not in the journal")

    def begin(self, begun):
        """Takes the text by which a life begins, or by which a running service rewrites its journal."""
        is_new = life_of(begun) > life_of(self.text)
        if is_new:
            self.end_life()
        changes = changes_in(self.text)
        if changes_in(begun) != changes and changes_in(begun) != shorter(changes):
            raise Differs(f"a text of {short(begun)} takes the place of other changes than its own")
        if not is_new:
            if life_of(begun) != life_of(self.text):
                raise Differs(f"a text of life {life_of(begun)} came after life {life_of(self.text)}")
            self.history.go_on_after(begun)
            return
        if lines_after_first(begun) != lines_after_first(self.text):
            earlier, self.history = self.history, history_of(begun)
            if earlier.last_groups() != self.history.last_groups():
                raise Differs("a start changed groups")
        self.life, self.first, self.found = life_of(begun), self.history.count, len(changes_in(begun))

    def end_life(self):
        """Sees that the changes of a life explain its replies, in the order of their places."""
        count, history = self.first, self.history
        for told in self.lives.pop(self.life, ()):
            needed = history.explained(told.name, told.command, told.reply, count)
            line = short(line_of(told.name, told.command)[:-1].decode())
            if needed is None or (needed == count and told.reply.startswith("term ")):
                raise Differs(f"in life {self.life}, at {told.place}, no change from {count} to {history.count} explains"
                              f" {line} with {short(told.reply)}")
            if needed - self.first + self.found > told.place - (self.life - 1) * PLACES:
                raise Differs(f"at {told.place} there were not yet as many changes as {line} needs")
            count = needed
        history.forget()


def changes_in(text):
    """The changes in a text."""
    return [line.rpartition(b" #")[0] for line in lines_after_first(text).splitlines()]


def by_life(told):
    """What was told in each life, in the order of the places. No place is there twice."""
    lives, last = {}, None
    for reply in sorted(told):
        if reply.place == last:
            raise Differs(f"two replies have the place {last}")
        last = reply.place
        lives.setdefault(last // PLACES + 1, []).append(reply)
    return lives


def told_by(pairs):
    """What was told, of pairs of a name and a command with the line of its reply. The places rise."""
    told, last = [], 0
    for (name, command), line in pairs:
        place, _, reply = line.partition(" ")
        if place == "-":
            if reply not in WITHOUT:
                raise Differs(f"{command} has no place, and is answered {short(reply)}")
            continue
        if int(place) <= last:
            raise Differs(f"the place {place} was told after {last}")
        last = int(place)
        told.append(Told(last, name, command, reply))
    return told


def judge(name, events, told, named=()):
    """Sees that what was told fits the events of a journal. `named` are replies without places, each with the name of its
    group. The answer is a line about it."""
    texts = texts_of(name, events)
    this = Judge(told)
    for group, reply in named:
        this.hear(group, reply)
    lives = sorted(this.lives)
    this.read(texts)
    return f"{len(told)} replies of {len(lives)} lives, {len(this.leaders)} leaders, {this.history.count} changes"
