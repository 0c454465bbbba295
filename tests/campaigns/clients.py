"""Clients that campaign, each in a process of its own, and what they were told."""

import contextlib
import ctypes
import os
import selectors
import signal
import time

from serving import Client, Differs, same

# What a client tells of itself, and not of a line that it was told.
SIGN = b"sign"
# A number of prctl: the system ends a process when its parent ends.
END_WITH_PARENT = 1


def campaign(port, group, number, tell):
    """Campaigns in this process until it is killed, and tells each line with its time. Of each sign of life it tells the
    time before it."""
    ways = {signal.SIGUSR1: "close", signal.SIGUSR2: "reset", signal.SIGHUP: "half"}
    asked = []
    for one in ways:
        signal.signal(one, lambda number, _: asked.append(ways[number]))
    client = Client(port)
    client.send(b"join %s %d\n" % (group.encode(), number))
    client.socket.settimeout(0.2)
    while True:
        try:
            line = client.line()
        except TimeoutError:
            at, line = time.monotonic_ns(), None
            client.send(b"\n")
            os.write(tell, b"%d %s\n" % (at, SIGN))
        if line is not None:
            os.write(tell, b"%d %s" % (time.monotonic_ns(), line or b"end\n"))
            if not line:
                return
        if asked:
            os.write(tell, b"%d gone\n" % time.monotonic_ns())
            end(client, asked.pop())
            return


def end(client, way):
    """Ends a connection."""
    if way == "reset":
        client.reset()
    elif way == "half":
        client.end_sending()
        time.sleep(1)
    else:
        client.close()


class Member:
    """A client in a process of its own. `signed` is when it gave a sign of life last, as far as that was read."""

    def __init__(self, port, group, number):
        self.group, self.number, self.lines, self.rest = group, number, [], b""
        self.began = self.signed = time.monotonic()
        self.source, tell = os.pipe()
        self.pid = os.fork()
        if self.pid == 0:
            status = 1
            ctypes.CDLL(None).prctl(END_WITH_PARENT, signal.SIGKILL)
            try:
                with contextlib.suppress(OSError):  # (the program may have ended the connection)
                    campaign(port, group, number, tell)
                status = 0
            finally:
                os._exit(status)
        os.close(tell)

    def read(self):
        """Reads what was told, and whether more may come. The new lines with their times are the answer."""
        more = os.read(self.source, 65536)
        whole, _, self.rest = (self.rest + more).rpartition(b"\n")
        told = [line.split(b" ", 1) for line in whole.split(b"\n") if line]
        self.signed = max([self.signed, *(int(at) / 1e9 for at, line in told if line == SIGN)])
        new = [(int(at) / 1e9, line.decode()) for at, line in told if line != SIGN]
        self.lines += new
        return new, bool(more)

    def leads(self):
        """Whether its last line names itself."""
        words = self.lines[-1][1].split() if self.lines else []
        return words[:1] == ["leader"] and int(words[2].split("/")[0]) == self.number

    def end(self, way):
        """Ends it in this way. The answer is when it was ended."""
        sent = {"kill": signal.SIGKILL, "stop": signal.SIGSTOP, "close": signal.SIGUSR1, "reset": signal.SIGUSR2,
                "half": signal.SIGHUP}[way]
        at = time.monotonic()
        os.kill(self.pid, sent)
        return at

    def bury(self):
        """Ends its process for good. If it ended by itself before, it had no fault."""
        with contextlib.suppress(ProcessLookupError):
            os.kill(self.pid, signal.SIGKILL)
        _, status = os.waitpid(self.pid, 0)
        os.close(self.source)
        if os.WIFEXITED(status):
            same(f"status of the client {self.group} {self.number}", os.WEXITSTATUS(status), 0)


class Field:
    """All clients, and what they were told."""

    def __init__(self, port, doors):
        self.port, self.doors = port, doors
        self.chosen = selectors.DefaultSelector()
        self.members, self.leaders = {}, {}

    def add(self, group, number):
        """A new client for a number."""
        member = Member(self.doors, group, number)
        self.members[group, number] = member
        self.chosen.register(member.source, selectors.EVENT_READ, member)
        return member

    def drop(self, member):
        """Looks at all that a client was told, and lets it go."""
        with contextlib.suppress(KeyError):
            self.chosen.unregister(member.source)
        check_lines(member)
        member.bury()

    def watch(self, seconds, until=lambda member, at, line: False):
        """Reads what clients are told for a while, or until a line is as wanted. The answer is that line."""
        last = time.monotonic() + seconds
        while (left := last - time.monotonic()) > 0:
            for key, _ in self.chosen.select(left):
                new, more = key.data.read()
                if not more:
                    self.chosen.unregister(key.data.source)
                for at, line in new:
                    self.check(key.data, line)
                    if until(key.data, at, line):
                        return at, line
        return None

    def check(self, member, line):
        """Compares the leader that a line names to what others were told."""
        words = line.split()
        if words[0] == "leader":
            known = self.leaders.setdefault((member.group, int(words[1])), words[2])
            same(f"leader of term {words[1]} of {member.group}", words[2], known)


def check_lines(member):
    """Checks all that one client was told."""
    lines = [line for _, line in member.lines if line not in ("gone", "end")]
    if not lines:
        return
    same(f"first line of {member.group} {member.number}", lines[0], "ok")
    for one, other in zip(lines, lines[1:]):
        if one == other:
            raise Differs(f"{member.group} {member.number} was told {one} twice in a row")
    terms = [int(line.split()[1]) for line in lines if line.split()[0] in ("leader", "undecided")]
    if terms != sorted(terms):
        raise Differs(f"{member.group} {member.number} was told terms that fall: {terms}")
