"""Many clients that campaign in some groups, and are ended one after another."""

import time

from campaigns.clients import Field
from campaigns.waiting import wait_empty, wait_gone
from processes import resident
from serving import PATIENCE, Client, Differs, same

CLIENTS = 64
GROUPS = [f"g{number}" for number in range(8)]
KINDS = ["lelann", "chang", "hirschberg", "peterson"]
# how a client is ended, and how often among so many
WAYS = ["kill"] * 4 + ["close"] * 2 + ["reset"] * 2 + ["half"] * 2 + ["stop"]
# how many bytes are kept for a term: it has eight members
TERM = 1024


def term_of(member):
    """The term of the last line of a client."""
    words = member.lines[-1][1].split() if member.lines else []
    return int(words[1]) if words[:1] in (["leader"], ["undecided"]) else 0


class Crowd:
    """64 clients in 8 groups. `took` has the times after which leaders were followed, and `stopped` those of leaders
    that were stopped. `ends` is how many clients were ended."""

    def __init__(self, words, pid, port, doors, dice):
        self.words, self.pid, self.port, self.dice = words, pid, port, dice
        self.field = Field(port, doors)
        self.took, self.stopped, self.ends = [], [], 0

    def come(self):
        """Makes the groups, and has all clients campaign."""
        lines = b"".join(b"create %s %s\n" % (group.encode(), KINDS[place % 4].encode())
                         for place, group in enumerate(GROUPS))
        same("replies", Client(self.port).told(lines), b"ok\n" * len(GROUPS))
        for number in range(1, CLIENTS // len(GROUPS) + 1):
            for group in GROUPS:
                self.field.add(group, number)
        self.field.watch(1)

    def end_one(self):
        """Ends a client, most often a leader, which must be followed. Another client takes its number."""
        group = self.dice.choice(GROUPS)
        here = [member for (name, _), member in self.field.members.items() if name == group]
        leading = [member for member in here if member.leads()]
        led = bool(leading) and self.dice.random() < 0.8
        member = self.dice.choice(leading if led else here)
        way, term = self.dice.choice(WAYS), term_of(member)
        at = member.end(way)
        if led:
            self.follow(member, term, way, at)
        self.field.watch(0.05)
        self.ends += 1
        self.field.drop(member)
        wait_gone(self.port, group, member.number)
        self.field.add(group, member.number)
        self.field.watch(0.1)

    def follow(self, old, term, way, at):
        """Waits for a leader of a later term than that of an old one, and notes how long it took."""
        def is_next(member, _, line):
            words = line.split()
            return member.group == old.group and words[0] == "leader" and int(words[1]) > term

        found = self.field.watch(self.words.patience + self.words.idle, is_next)
        if found is None:
            raise Differs(f"the leader of term {term} of {old.group} was not followed ({way})")
        gone = next((when for when, line in old.lines if line == "gone"), at)
        if way == "stop":
            self.stopped.append(found[0] - old.signed)
        else:
            self.took.append(found[0] - gone)

    def leave(self):
        """Ends all clients. A stopped leader must have been followed after the time for which it may be silent. That is
        counted from a moment before its last sign of life, as a busy machine may have delayed the next sign."""
        for member in self.field.members.values():
            self.field.drop(member)
        wait_empty(self.port, GROUPS)
        for one in self.stopped:
            if not self.words.idle - 0.1 <= one <= self.words.idle + self.words.patience:
                raise Differs(f"a stopped leader was followed after {one:.2f} s")

    def memory(self):
        """The resident memory of the program without what it keeps for the terms of the groups, in bytes."""
        terms = sum(len(Client(self.port).told(b"terms %s\n" % group.encode()).split()) - 1 for group in GROUPS)
        return resident(self.pid) - TERM * terms


def check_crowd(crowd, seconds):
    """Ends clients for a while. The answer is by how many bytes the memory that is not kept for terms has grown, after
    three tenths of the time."""
    crowd.come()
    memory, last = None, time.monotonic() + seconds
    # (on a busy machine one end may take nearly all of the time)
    while (time.monotonic() < last or memory is None
           or not crowd.took and time.monotonic() < last + PATIENCE):
        if memory is None and time.monotonic() > last - 0.7 * seconds:
            memory = crowd.memory()
        crowd.end_one()
    if not crowd.took:
        raise Differs(f"of {crowd.ends} clients that were ended none was a leader that another one followed")
    crowd.leave()
    return crowd.memory() - memory
