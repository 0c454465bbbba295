"""Clients that change groups side by side, and how their replies fit a journal.

Each client has members of its own in groups that all share, and groups of its own. So a change that was granted to it
is the next such change in the journal.
"""

import contextlib
import random
import threading

from identity import Identity
from journals.changes import KINDS, line_of
from serving import Client, Differs, short

SHARED = tuple(f"all-{kind}" for kind in KINDS)
SHARES = 4  # members that each client has in each shared group
DRAWN = {"join": 40, "leave": 22, "who": 24, "start": 5, "members": 8, "terms": 5, "groups": 3, "create": 2, "bad": 2}
WEIGHTS = [0, 0, 1, 9, 65535]
MOST_OWN = 12  # groups of its own


class Log:
    """The commands that were sent over one connection, and the replies that came."""

    def __init__(self, port):
        self.port, self.asked, self.replies = port, [], []


class Talker:
    """One of the clients. `number` says which members are its own, and `seed` what it asks."""

    def __init__(self, number, seed):
        self.number, self.dice = number, random.Random(f"{number} {seed}")
        self.shares = [number * SHARES + place + 1 for place in range(SHARES)]
        self.own, self.logs, self.fault, self.was_cut = [], [], None, False

    def command(self):
        """Returns a group's name and a command about it."""
        word = self.dice.choices(list(DRAWN), DRAWN.values())[0]
        name = self.dice.choice([*SHARED, *self.own[-2:]])
        if word == "join":
            return name, (word, Identity(self.dice.choice(WEIGHTS), self.dice.choice(self.shares)))
        if word == "leave":
            return name, (word, self.dice.choice(self.shares))
        if word == "who":
            return name, (word, self.dice.choice([*self.shares, 1, 2]))
        if word == "create" and len(self.own) < MOST_OWN:
            self.own.append(f"own{self.number}-{len(self.own)}")
            return self.own[-1], (word, self.dice.choice(KINDS))
        if word in ("start", "members", "terms"):
            return name, (word,)
        return ("", ("groups",)) if word == "groups" else (name, ("members", "all"))

    def batch(self):
        """Returns commands that are sent at once."""
        return [self.command() for _ in range(self.dice.choice([1, 1, 1, 2, 6]))]

    def count(self):
        """Returns how many replies came."""
        return sum(len(log.replies) for log in self.logs)

    def talk(self, port, is_over):
        """Sends commands over one connection, some at once, until it is over or the connection was cut."""
        self.was_cut = True
        with contextlib.suppress(ConnectionError), contextlib.closing(Client(port)) as client:
            log = Log(client.socket.getsockname()[1])
            self.logs.append(log)
            while not is_over():
                commands = self.batch()
                log.asked += commands
                client.send(b"".join(line_of(name, command) for name, command in commands))
                for _ in commands:
                    reply = client.line()
                    if not reply.endswith(b"\n"):
                        return
                    log.replies.append(reply[:-1].decode())
            self.was_cut = False

    def take_logs(self):
        """Returns the logs so far, and forgets them."""
        logs, self.logs = self.logs, []
        return logs

    def run(self, port, is_over):
        """Talks, and keeps the fault if there is one."""
        try:
            self.talk(port, is_over)
        except Exception as fault:  # (whatever it is: nobody else hears of it)
            self.fault = fault


class Grower(Talker):
    """A client by which the journal grows: members with long names join and leave a group of its own."""

    def batch(self):
        name, number = "a-long-long-name", self.dice.randrange(4294900000, 4294967000)
        made = [(name, ("create", "chang"))]
        for each in range(number, number + 32):
            made += [(name, ("join", Identity(65535, each))), (name, ("leave", each))]
        return made


def talk_all(talkers, port, is_over, kill=None):
    """Has all talk at once, each until it is over for it. If the program is killed meanwhile, each talks until its
    connection ends. Otherwise no connection may end."""
    threads = [threading.Thread(target=talker.run, args=(port, lambda it=talker: is_over(it))) for talker in talkers]
    for thread in threads:
        thread.start()
    if kill:
        kill()
    for thread in threads:
        thread.join()
    for talker in talkers:
        if talker.fault:
            raise Differs(f"client {talker.number}: {talker.fault!r}")
        if talker.was_cut and not kill:
            raise Differs(f"client {talker.number}: its connection ended")


def counts_of(history, asked, replies, count):
    """Returns for each reply how many changes it needs: the least number, from `count` on, that explains it."""
    counts = []
    for (name, command), reply in zip(asked, replies):
        needed = history.explained(name, command, reply, count)
        if needed is None:
            line = short(line_of(name, command)[:-1].decode())
            raise Differs(f"no journal of {history.count} changes explains, after {count}, {line} with {short(reply)}")
        count = needed
        counts.append(count)
    return counts
