"""A program in which calls go wrong, and a session that asks it.

The program may end a connection, or refuse memory, no more often than calls went wrong in it. The client then comes
again. If more fails than that, the program has to end.
"""

import re
import subprocess

from server import PATIENCE, Client, Lost
from sweep import Bad

# The calls by which a connection may end, or a command be refused, if they fail.
LETTING_GO = ("growth", "read", "write", "setsockopt")
REFUSED = b"no no-memory"


class Gone(Exception):
    """The program takes no more clients."""


class Failing:
    """What failed so far at the clients of a program, and a session of it."""

    def __init__(self, server, call, how):
        self.server, self.session = server, None
        self.may_fail, self.may_starve = how == "fail" and call in LETTING_GO, call == "growth"
        self.failed = self.lines = 0

    def wrong(self):
        """How many calls went wrong that may end a connection or refuse a command."""
        return self.server.told() if self.may_fail else 0

    def starves(self):
        """Whether memory was refused."""
        return self.may_starve and self.wrong() > 0

    def fail(self, what):
        """Notes an end or a refusal. Each needs a call that went wrong, unless the program ends."""
        self.failed += 1
        if self.failed > self.wrong():
            try:
                self.server.run.wait(timeout=PATIENCE)
            except subprocess.TimeoutExpired:
                raise Bad(f"{what}: that is failure {self.failed}, and {self.wrong()} calls went wrong") from None
            raise Gone

    def connect(self, port):
        """A client of one of the ports."""
        try:
            return Client(port)
        except Lost:
            raise Gone from None

    def ask(self, line, wanted):
        """Asks in a session until the line is answered. The answer is the reply, which is one of those wanted."""
        while True:
            self.session = self.session or self.connect(self.server.port)
            try:
                reply = self.session.ask(line)
            except Lost:
                self.session.socket.close()
                self.session = None
                self.fail(f"a session ended at {line!r}")
                continue
            self.lines += 1
            if reply != REFUSED:
                break
            self.fail(f"{line!r} is refused memory")
        if not re.fullmatch(wanted, reply):
            raise Bad(f"{line!r} is answered {reply!r}")
        return reply
