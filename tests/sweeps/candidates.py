"""Clients that campaign in one group of a running program, and a session that asks who is a member.

Each line that a client is told is compared with the one before it, and with what others were told. How often a
connection may end, or memory be refused to a command, is in failing.py.
"""

import contextlib
import re
import select
import socket
import struct
import time

from failing import REFUSED, Failing
from server import PATIENCE
from sweep import Bad

# The members by their numbers, as lines name them. The first comes alone.
NAMES = {3: b"3", 1: b"1/9", 2: b"2"}
WAYS = ("close", "reset", "half")
# How long a leader is waited for if a worker may have starved, and how long one look at all sockets takes at most.
STARVED, LOOK = 0.15, 0.02
NO_TERM, NOT_IN_TERM = b"no no-term", b"no not-in-term"
OF_TERM = rb"undecided [1-9][0-9]*|leader [1-9][0-9]* [1-9][0-9/]*"


def rank(name):
    """By what members are compared."""
    number, _, weight = name.partition(b"/")
    return int(weight or 0), int(number)


class Candidate:
    """A member, and one client after another that campaigns as it. `last` is the last line of the present client, and
    `term` the newest term that it was told of."""

    def __init__(self, group, number):
        self.group, self.name = group, NAMES[number]
        self.client, self.last, self.term, self.came, self.has_joined = None, None, 0, 0, False

    def come(self):
        """Connects, and asks to join. If it never was a member, the first term that it is told of is newer than all
        that others were told of."""
        self.client = self.group.connect(self.group.server.second)
        self.last, self.term, self.has_joined = None, self.group.newest - (1 if self.came else 0), False
        self.came += 1
        with contextlib.suppress(ConnectionError):
            self.client.socket.sendall(b"join a %s\n" % self.name)

    def take(self):
        """Reads what there is. If the program ended the connection, it comes again."""
        goes_on = self.client.more()
        self.look_at_all(self.client)
        if not goes_on:
            self.client.socket.close()
            self.client = None
            if self.last != REFUSED:
                self.group.fail(f"{self.name!r} was let go after {self.last!r}")
            self.come()

    def look_at_all(self, client):
        """Looks at all lines that came whole."""
        while b"\n" in client.told[client.taken:]:
            self.look_at(client.reply())

    def look_at(self, line):
        """Looks at one line."""
        before, self.last = self.last, line
        if before is None:
            is_right = line in (b"ok", REFUSED)
        elif re.fullmatch(OF_TERM, line):
            is_right = self.is_next(line.split(b" "), before)
        elif line == NOT_IN_TERM:
            is_right = before in (b"ok", NO_TERM)
        else:
            is_right = line == NO_TERM and before == b"ok" and not self.group.newest and self.group.starves()
        if not is_right:
            raise Bad(f"{self.name!r} is told {line!r} after {before!r}; others know {self.group.leaders}")
        self.group.lines += 1
        self.has_joined = line != REFUSED
        if line == REFUSED:
            self.group.fail(f"the join of {self.name!r} is refused memory")

    def is_next(self, words, before):
        """Whether a line of a term is right after that line."""
        term, was = int(words[1]), self.term
        self.term, self.group.newest = term, max(term, self.group.newest)
        if words[0] == b"undecided":
            return term > was
        leader = words[2]
        is_of_ring = leader in NAMES.values() and (self.group.kind == b"peterson" or rank(leader) >= rank(self.name))
        is_one = self.group.leaders.setdefault(term, leader) == leader
        return is_of_ring and is_one and (term > was or before == b"undecided %d" % term)

    def knows(self):
        """Whether its last line is about a term."""
        return bool(self.last and re.fullmatch(OF_TERM, self.last))

    def leads(self):
        """Whether its last line names it."""
        return self.last == b"leader %d %s" % (self.term, self.name)

    def go(self, way):
        """Ends the connection in this way. Of a half closed one the rest is read."""
        client, self.client = self.client, None
        if way == "half":
            client.leave()
            self.look_at_all(client)
        elif way == "reset":
            client.socket.setsockopt(socket.SOL_SOCKET, socket.SO_LINGER, struct.pack("ii", 1, 0))
        client.socket.close()
        self.has_joined = False


class Group(Failing):
    """A group, its candidates, and a session that asks who is a member."""

    def __init__(self, server, call, how, kind):
        super().__init__(server, call, how)
        self.kind, self.leaders, self.newest = kind, {}, 0
        self.candidates = [Candidate(self, number) for number in NAMES]

    def there(self):
        """The candidates that are connected."""
        return [it for it in self.candidates if it.client]

    def take(self):
        """Reads what candidates are told for a moment."""
        sockets = {it.client.socket: it for it in self.there()}
        for one in select.select(list(sockets), [], [], LOOK)[0]:
            sockets[one].take()

    def watch(self, holds):
        """Reads until this holds. Whether it came to hold: it must, unless a worker may have starved."""
        began = time.monotonic()
        while not holds():
            waited = time.monotonic() - began
            if waited > STARVED and self.starves():
                return False
            if waited > PATIENCE:
                self.bad("nobody is known to lead")
            self.take()
        return True

    def insist(self, what, holds):
        """Reads until this holds."""
        until = time.monotonic() + PATIENCE
        while not holds():
            if time.monotonic() > until:
                self.bad(what)
            self.take()

    def bad(self, what):
        """Says what is bad, and what candidates were told last."""
        states = [(it.name, it.last) for it in self.there()]
        raise Bad(f"{what}, after {PATIENCE} s: {states}, {self.wrong()} calls went wrong")

    def is_settled(self):
        """Whether a candidate leads the newest term and each other one was told so or came later."""
        there = self.there()
        leader = next((it.last for it in there if it.leads() and it.term == self.newest), None)
        return not there or (leader is not None and all(it.last in (leader, NOT_IN_TERM) for it in there))

    def is_led(self):
        """Whether all have joined, one was told of the newest term, and that is undecided or its leader is there. If
        nobody had joined when the members of an undecided term went, there would be nobody to start a term for."""
        there = self.there()
        leader = self.leaders.get(self.newest)
        is_told = any(it.knows() and it.term == self.newest for it in there)
        is_there = leader is None or leader in [it.name for it in there]
        return not there or (is_told and is_there and all(it.has_joined for it in there))

    def settle(self):
        """Waits for a leader, and compares what candidates were told with what the session is."""
        if not self.watch(self.is_settled):
            self.insist("a leader that has gone is not followed", self.is_led)
        self.compare_members()
        last = self.compare_terms()
        self.insist(f"a member is not told of term {last}",
                    lambda: all(it.term >= last for it in self.there() if it.knows()))

    def members(self):
        """The members, as the session has them."""
        return self.ask(b"members a", rb"members( [1-9][0-9/]*)*").split(b" ")[1:]

    def compare_members(self):
        """Sees that exactly those that are there are members. Who has just gone may be one for a moment."""
        until = time.monotonic() + PATIENCE
        while True:
            joined = [(it, it.client) for it in self.there() if it.has_joined]
            listed = self.members()
            behind = set(listed) - {it.name for it in self.there()}
            if not behind:
                break
            if time.monotonic() > until:
                self.bad(f"{sorted(behind)} stay behind")
            self.take()
        lost = [(it, client) for it, client in joined if it.name not in listed]
        self.insist("a client that is no member is kept", lambda: all(it.client is not client for it, client in lost))

    def compare_terms(self):
        """Sees that the terms have the leaders that candidates were told. The answer is how many terms there were."""
        terms = self.ask(b"terms a", rb"terms( [1-9][0-9]*:(-|[1-9][0-9/]*))*").split(b" ")[1:]
        listed = dict(enumerate((term.split(b":")[1] for term in terms), 1))
        told = all(listed.get(term) == leader for term, leader in self.leaders.items())
        if not told or len(terms) < self.newest or not set(listed.values()) <= {b"-", *NAMES.values()}:
            raise Bad(f"the terms are {terms}; {self.leaders} were told to lead, and {self.newest} was the last")
        self.leaders.update((term, leader) for term, leader in listed.items() if leader != b"-")
        return len(terms)

    def compare_restart(self):
        """Sees that a restart has what candidates were told, and that those who were there at the end are members."""
        self.session = None
        if not self.lines:
            return
        listed = self.members()
        joined = [it.name for it in self.candidates if it.has_joined]
        if not set(joined) <= set(listed) <= set(NAMES.values()):
            raise Bad(f"{joined} had joined, and a restart has the members {listed}")
        self.compare_terms()

    def compare_empty(self):
        """Sees that a start which serves campaigns has taken all members out."""
        self.session = None
        if self.lines and (listed := self.members()):
            raise Bad(f"a restart with campaigns has the members {listed}")

    def hear_out(self):
        """Reads what candidates were told before the program ended."""
        for it in self.there():
            while it.client.more():
                pass
            it.look_at_all(it.client)
            it.client.socket.close()

    def campaign(self, first_way):
        """All that the clients do. The first leader goes in the way of this number, and each other one in the next."""
        reply = self.ask(b"create a %s" % self.kind, rb"ok|no exists")
        if reply != b"ok" and not self.failed:
            raise Bad(f"a first group is refused: {reply!r}")
        first, *others = self.candidates
        first.come()
        self.settle()
        for it in others:
            it.come()
        self.settle()
        for number, _ in enumerate(NAMES, first_way):
            leader = next((it for it in self.there() if it.leads()), self.there()[0])
            leader.go(WAYS[number % len(WAYS)])
            self.settle()
        self.session.leave()
