"""Clients of `ringd run --places`, and what they were told, with its places."""

import random
import threading
import time

from histories.commands import WEIGHTS
from identity import Identity
from serving import PATIENCE, Differs, connected

KINDS = {"a": "lelann", "b": "chang", "c": "hirschberg", "d": "peterson"}
GROUPS = list(KINDS)
MEMBERS = 6
# How many replies each client waits for, however short its time is.
LEAST = 300


def next_reply(replies):
    """The place and the reply of the next line."""
    line = replies.readline()
    if not line.endswith("\n"):
        raise EOFError(f"{line!r} is no line")
    return line[:-1].split(" ", 1)


class Client(threading.Thread):
    """One client: it keeps what it was told, each reply with its line and its place."""

    def __init__(self, place, seed, until):
        super().__init__()
        self.place, self.random, self.until = place, random.Random(seed), until
        self.told, self.fault = [], None

    def a_line(self):
        """A command at random."""
        group, member = self.random.choice(GROUPS), self.random.randint(1, MEMBERS)
        joining = Identity(self.random.choice(WEIGHTS), member)
        return self.random.choice(
            [
                f"create {group} {KINDS[group]}",
                f"join {group} {joining}",
                f"join {group} {joining}",
                f"leave {group} {member}",
                f"start {group}",
                f"who {group} {member}",
                f"who {group} {member}",
                f"members {group}",
                f"terms {group}",
                "groups",
                "bad",
            ]
        )

    def run(self):
        try:
            self.talk()
        except Exception as fault:  # (whatever it is: nobody else hears of it)
            self.fault = fault

    def run_until_killed(self):
        """Talks to a program that is killed meanwhile. A kill cuts connections and lines, and has no other fault."""
        self.run()
        if isinstance(self.fault, (OSError, EOFError)):
            self.fault = None

    def talk(self):
        """Sends lines one at a time, or several at once, and keeps the replies."""
        with connected(self.place) as stream:
            replies = stream.makefile("r", encoding="ascii", newline="\n")
            while time.monotonic() < self.until or len(self.told) < LEAST:
                lines = [self.a_line() for _ in range(self.random.choice([1, 1, 4, 16]))]
                stream.sendall("".join(f"{line}\n" for line in lines).encode())
                for line in lines:
                    self.told.append((line, *next_reply(replies)))


class LastClient(Client):
    """The last client, which has a term of each group decided."""

    def talk(self):
        with connected(self.place) as stream:
            replies = stream.makefile("r", encoding="ascii", newline="\n")

            def ask(line):
                stream.sendall(f"{line}\n".encode())
                place, reply = next_reply(replies)
                self.told.append((line, place, reply))
                return reply

            ask("groups")
            for group in GROUPS:
                self.decide(group, ask)

    def decide(self, group, ask):
        """Starts a term of a group, and asks each member of its ring until it knows the leader."""
        for line in (f"create {group} {KINDS[group]}", f"join {group} 1", f"start {group}", f"terms {group}",
                     f"members {group}"):
            ask(line)
        told = [self.knows(group, member, ask) for member in range(1, MEMBERS + 1)]
        if not any(told):
            raise ValueError(f"no member of {group} is in its last term")

    def knows(self, group, member, ask):
        """Asks until a member of the last term knows the leader; false if it isn't in the term."""
        until = time.monotonic() + PATIENCE
        while (reply := ask(f"who {group} {member}")).startswith("undecided"):
            if time.monotonic() > until:
                raise ValueError(f"member {member} of {group} was told {reply!r} for {PATIENCE} seconds")
            time.sleep(0.001)
        return reply.startswith("leader")


def entries_of(clients):
    """What all clients were told, by its place."""
    entries = {}
    for number, client in enumerate(clients, 1):
        if client.fault is not None:
            raise Differs(f"client {number} ended by {client.fault!r}")
        last = 0
        for line, place, reply in client.told:
            if place == "-":
                if (line, reply) != ("bad", "no bad-line"):
                    raise Differs(f"client {number} was told no place for {line!r}, answered {reply!r}")
                continue
            if int(place) <= last:
                raise Differs(f"client {number} was told the place {place} after {last}")
            last = int(place)
            if last in entries:
                raise Differs(f"two calls have the place {last}")
            entries[last] = (number, line, reply)
    return entries
