"""Clients of two processes, of which one serves at a time: sessions with places, and campaigns.

If a process is silent and another one listens, a client goes on there. It keeps the old connection and reads it to its
end, so that it also has what a process tells that was superseded.
"""

import random
import select
import threading
import time

from journals.changes import line_of
from journals.talkers import SHARED, Talker
from serving import Differs, connected

CAMPS = {"camp-a": "chang", "camp-b": "peterson"}
# After how many seconds of silence a client looks for another process, and how long it pauses between two batches.
SILENCE, PAUSE = 1.0, (0.05, 0.15)
# How often a candidate gives a sign of life, and for how long it stays at most, in seconds.
SIGN, STAY = 1.0, 30.0
# Of so many commands that would start a term, one does.
STARTS = 6


class Wire:
    """A connection to a process: what was asked, and the lines that came."""

    def __init__(self, slot, run, path):
        self.slot, self.run, self.asked, self.lines, self.rest = slot, run, [], [], b""
        self.socket, self.is_open, self.sent = connected(path, 1), True, time.monotonic()

    def send(self, data):
        """Sends bytes, as far as the connection takes them."""
        self.sent = time.monotonic()
        try:
            self.socket.sendall(data)
        except OSError:
            self.close()

    def read(self):
        """Reads what is there. The answer is how many lines came."""
        before = len(self.lines)
        try:
            more = self.socket.recv(65536)
        except OSError:
            more = b""
        *lines, self.rest = (self.rest + more).split(b"\n")
        self.lines += [line.decode("ascii", "replace") for line in lines]
        if not more:
            self.close()
        return len(self.lines) - before

    def waits(self):
        """Whether replies are to come."""
        return len(self.lines) < len(self.asked)

    def close(self):
        """Ends the connection."""
        self.is_open = False
        self.socket.close()


class Wired(threading.Thread):
    """A client with a present connection and some old ones. A slot holds a process, and may be cut off from its
    clients."""

    def __init__(self, slots, seed):
        super().__init__(daemon=True)
        self.slots, self.dice, self.wires, self.wire, self.is_over = slots, random.Random(seed), [], None, False
        self.fault = None

    def run(self):
        try:
            while not self.is_over:
                self.turn()
                self.read_all()
        except Exception as fault:  # (whatever it is: nobody else hears of it)
            self.fault = fault
        for wire in self.wires:
            wire.close()

    def other(self):
        """A new connection to a process that listens, and to which the present one is not; else None."""
        for slot in self.slots:
            run = slot.run
            is_new = not self.wire or run is not self.wire.run
            if run and run.listens() and is_new and not slot.is_held:
                try:
                    self.wires.append(Wire(slot, run, self.path_of(run)))
                    return self.wires[-1]
                except OSError:
                    continue
        return None

    def read_all(self):
        """Reads all connections for a short time."""
        reading = {wire.socket: wire for wire in self.wires if wire.is_open and not wire.slot.is_held}
        if not reading:
            time.sleep(0.02)
            return
        for socket in select.select(list(reading), [], [], 0.02)[0]:
            wire = reading[socket]
            self.hear(wire, wire.read())
        if self.wire and not self.wire.is_open:
            self.wire = None


class ChaosTalker(Talker):
    """A client that first makes the groups that all share, and starts fewer terms."""

    is_first = True

    def batch(self):
        if self.is_first:
            self.is_first = False
            groups = [*((name, name.removeprefix("all-")) for name in SHARED), *CAMPS.items()]
            return [(name, ("create", kind)) for name, kind in groups]
        made = super().batch()
        return [it if it[1] != ("start",) or self.dice.randrange(STARTS) == 0 else (it[0], ("members",)) for it in made]


class SessionClient(Wired):
    """A client of sessions. `changed` are the moments when it was told of changes that it made."""

    def __init__(self, slots, number):
        super().__init__(slots, number)
        self.talker, self.next, self.changed = ChaosTalker(number, "chaos"), 0, []

    @staticmethod
    def path_of(run):
        """Where a run has its sessions."""
        return run.socket

    def turn(self):
        """Sends a batch if it is time for one, over another connection if the present one is silent."""
        now = time.monotonic()
        if not self.wire or (self.wire.waits() and now > self.wire.sent + SILENCE):
            self.wire = self.other() or self.wire
        wire = self.wire
        if wire and not wire.waits() and now > self.next and not wire.slot.is_held:
            self.next = now + self.dice.uniform(*PAUSE)
            commands = self.talker.batch()
            wire.asked += commands
            wire.send(b"".join(line_of(*it) for it in commands))

    def hear(self, wire, count):
        """Notes when a change was told."""
        if len(wire.lines) > len(wire.asked):
            raise Differs(f"{len(wire.lines)} lines came to {len(wire.asked)} commands")
        replies = [line.partition(" ")[2] for line in wire.lines[len(wire.lines) - count:]]
        if any(reply == "ok" or reply.startswith("term ") for reply in replies):
            self.changed.append(time.monotonic())

    def pairs(self):
        """For each connection, what was asked with what was told."""
        return [list(zip(wire.asked, wire.lines)) for wire in self.wires]


class Candidate(Wired):
    """A client that campaigns, leaves after some time, and comes again. It goes to each process that begins to serve."""

    def __init__(self, slots, number):
        super().__init__(slots, f"candidate {number}")
        self.group, self.number = list(CAMPS)[number % len(CAMPS)], 1000 + number
        self.leaves, self.pause = 0, 0

    @staticmethod
    def path_of(run):
        """Where a run has its campaigns."""
        return run.campaigns

    def turn(self):
        """Joins if it is nowhere, or if another process listens; gives a sign of life; leaves if it stayed long."""
        now = time.monotonic()
        if now > self.pause and (wire := self.other()):
            self.wire, self.pause, self.leaves = wire, now + SIGN, now + self.dice.uniform(1, STAY)
            wire.send(line_of(self.group, ("join", self.number)))
        elif self.wire and now > self.leaves:
            self.wire.close()
            self.wire = None
        elif self.wire and now > self.wire.sent + SIGN and not self.wire.slot.is_held:
            self.wire.send(b"\n")

    def hear(self, wire, count):
        """Sees that the terms of a connection never fall."""
        terms = [int(line.split(" ")[1]) for line in wire.lines[-count - 1:] if line.startswith(("leader ", "undecided "))]
        if terms != sorted(terms):
            raise Differs(f"a campaign in {self.group} was told {wire.lines[-count - 1:]}")

    def named(self):
        """What was told, each line with the group's name."""
        return [(self.group, line) for wire in self.wires for line in wire.lines]
