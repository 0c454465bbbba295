"""Growth refused in turn in the program as a server: sessions are answered as they would be, though workers may starve.

Two clients ask beside each other, line by line. A line that is answered `no no-memory` is sent again. A session that
is refused memory before its first line ends without a reply, and its client comes again. A worker that starves leaves
members undecided; but whoever is named a leader is named the one of the ring, and the list of terms names it too.
Where many growths are refused in a run, chance picks them by a seed.
"""

import contextlib
import itertools
import re
import time

from server import Client, Lost, serving
from sweep import Bad, NO_MEMORY
from table import CHANCES, IN_A_ROW, Sweep, growths_behind, seeds_of, sweep_all

# Who leads the ring 3, 1, 2.
LEADERS = {b"lelann": 3, b"chang": 3, b"hirschberg": 3, b"peterson": 1}
# How often a client may come, in all.
CONNECTIONS = 6
RUN_SESSIONS = 3
# What the program may say before it listens, and behind it.
BEFORE = (NO_MEMORY, b"ringd: thread failed\n")
BEHIND = (b"ringd: thread failed\n",)
FAILED = b"ringd: journal failed\n"
# How long a member may be undecided, where nothing was refused, and where a worker may have starved.
PATIENCE = 10
LOOKS, LOOK = 12, 0.001
# How often lines are sent again in a run, in all.
RESENT = 2000


class Election:
    """What two clients ask of one program, and whom they were named."""

    def __init__(self, server, kind):
        self.server, self.kind, self.leader = server, kind, LEADERS[kind]
        self.named = {}
        # how many terms were started
        self.started = 0
        self.resent = 0

    def ask(self, client, line, expected):
        """Asks a line until it is not refused memory; its reply is what these words match."""
        reply = client.ask(line)
        while reply == b"no no-memory":
            self.resent += 1
            if self.resent > self.server.told():
                raise Bad(f"{line!r} is refused memory, and none was refused")
            if self.resent > RESENT:
                raise Bad(f"{line!r} is refused memory again and again")
            reply = client.ask(line)
        if not re.fullmatch(expected, reply):
            raise Bad(f"{line!r} is answered {reply!r}")
        return reply

    def who(self, client, member, term):
        """Asks whom a member knows, until it knows or nothing can be waited for any longer."""
        began, looks = time.monotonic(), 0
        leader = b"leader %d %d" % (term, self.leader)
        while True:
            reply = self.ask(client, b"who a %d" % member, b"%s|undecided %d" % (leader, term))
            looks += 1
            if reply == leader:
                self.named[term] = leader
                return
            if self.server.told() and looks >= LOOKS:
                return
            if time.monotonic() - began > PATIENCE:
                raise Bad(f"member {member} is undecided, and nothing was refused")
            time.sleep(LOOK)

    def terms(self, client, last):
        """Asks who led the terms: who was named is named again, and nobody else."""
        parts = []
        for term in range(1, last + 1):
            parts.append(b" %d:%s" % (term, b"%d" % self.leader if term in self.named else b"(%d|-)" % self.leader))
        self.ask(client, b"terms a", b"terms" + b"".join(parts))

    def first(self, client):
        """What the first client asks before the second comes."""
        self.ask(client, b"create a %s" % self.kind, b"ok")
        for member in (3, 1, 2):
            self.ask(client, b"join a %d" % member, b"ok")
        self.ask(client, b"start a", b"term 1")
        self.started = 1
        self.who(client, 1, 1)
        self.who(client, 3, 1)
        self.terms(client, 1)

    def second(self, client):
        """What the second client asks beside it."""
        self.ask(client, b"join a 1", b"no member")
        self.ask(client, b"create b chang", b"ok")
        self.ask(client, b"drain a 1", b"no bad-line")
        self.ask(client, b"groups", b"groups a b")
        self.ask(client, b"start a", b"term 2")
        self.started = 2
        self.who(client, 2, 2)
        self.ask(client, b"leave a 1", b"ok")

    def last(self, client):
        """What the first client asks behind it."""
        self.ask(client, b"members a", b"members 3 2")
        self.ask(client, b"groups", b"groups a b")
        self.who(client, 1, 2)
        self.terms(client, 2)


class Guests:
    """The connections to a program, as many as it takes."""

    def __init__(self, server, most):
        self.server, self.left = server, most

    def come(self, line):
        """A client that was answered this first line, and the reply. One whose session was refused memory before
        it comes again; none where the program takes no more."""
        while self.left:
            refused = self.server.told()
            try:
                client = Client(self.server.port)
            except Lost:
                return None
            self.left -= 1
            try:
                reply = client.ask(line)
            except Lost:
                client.socket.close()
                if not self.server.told():
                    raise Bad(f"a session ended without a reply, and {refused} growths were refused") from None
                continue
            if reply != b"no bad-line":
                raise Bad(f"the empty line is answered {reply!r}")
            return client
        return None

    def leave(self):
        """The connections that are left come and go, as far as the program takes them."""
        with contextlib.suppress(Lost):
            for _ in range(self.left):
                Client(self.server.port).leave()


def elect(server, election, guests):
    """Both clients' sessions, as far as the program takes them; whether it took both."""
    first = guests.come(b"")
    if first is None:
        return False
    election.first(first)
    second = guests.come(b"")
    if second is not None:
        election.second(second)
        second.leave()
        election.last(first)
    else:
        election.terms(first, 1)
    first.leave()
    return second is not None


def expect_end(server, has_begun):
    """The program ends by itself as it has to."""
    status, out, error = server.ends()
    listening = server.listening()
    if not has_begun:
        well = status == 1 and out == b"" and error in BEFORE
    elif status == 0:
        well = out == listening + b"closed %d\n" % CONNECTIONS and error == b""
    else:
        well = status == 1 and out == listening and error in BEHIND
    if not well or (status and not server.told()):
        raise Bad(f"status {status}, {out!r}, {error!r}")


def growths_before(library, program):
    """How many growths the program makes before it listens."""
    words = ["serve", "--connections", str(CONNECTIONS)]
    with serving(library, program, words, "serve", growth=1, times=1 << 30, how="count") as server:
        if not server.listens():
            raise Bad("it doesn't listen")
        return server.told()


def refuse(library, program, kind, growth, **wrong):
    """One run of `serve` in which this growth is refused, and maybe others behind it: whether it was told, or `None`
    where no such growth is made."""
    words = ["serve", "--connections", str(CONNECTIONS)]
    what = f"serve, {kind.decode()}, growth {growth}{wrong or ''}"
    with serving(library, program, words, what, growth=growth, **wrong) as server:
        has_begun = server.listens()
        if has_begun:
            guests = Guests(server, CONNECTIONS)
            elect(server, Election(server, kind), guests)
            guests.leave()
        expect_end(server, has_begun)
        return True if server.told() else None


def refuse_in_run(library, program, kind, growth):
    """The same of `run`, which is ended from outside where it took both clients."""
    words = ["run", "--sessions", str(RUN_SESSIONS)]
    with serving(library, program, words, f"run, {kind.decode()}, growth {growth}", growth=growth) as server:
        return expect_run(server, Election(server, kind))


def refuse_with_journal(library, program, kind, growth):
    """The same of `run` with a journal, which ends if its journal fails. A restart without refusals has all that was
    replied."""
    words = ["run", "--sessions", str(RUN_SESSIONS)]
    what = f"run with a journal, {kind.decode()}, growth {growth}"
    with serving(library, program, words, what, journal=b"", growth=growth) as server:
        election = Election(server, kind)
        try:
            was_told = expect_run(server, election)
        except Lost:
            was_told = expect_failed(server)
        server.start_anew()
        client = Client(server.port)
        if election.started:
            election.terms(client, election.started)
        client.leave()
        return was_told


def expect_failed(server):
    """The program ends since its journal failed, and a growth was refused. The answer is true."""
    ended = server.ends()
    if ended != (1, server.listening(), FAILED) or not server.told():
        raise Bad(f"sessions ended, and the program: {ended}")
    return True


def expect_run(server, election):
    """One run of `run`, which is ended from outside if it took both clients: whether a refusal was told, or `None` if
    there was none."""
    has_begun = server.listens()
    if not (has_begun and elect(server, election, Guests(server, CONNECTIONS))):
        status, out, error = server.ends()
        listening = server.listening() if has_begun else b""
        if status != 1 or out != listening or error not in BEFORE or not server.told():
            raise Bad(f"status {status}, {out!r}, {error!r}")
        return True
    was_there, out, error = server.is_ended_by_us()
    if not was_there or out != server.listening() or error:
        raise Bad(f"it ended, or said {out!r}, {error!r}")
    return True if server.told() else None


def sweep_sessions(pool, library, program, is_full):
    for kind in LEADERS:
        sweep = Sweep(f"growth, sessions that elect by {kind.decode()}")
        one = lambda n: refuse(library, program, kind, n)
        sweep_all(pool, sweep, one, itertools.count(1), is_certain=False)
        yield sweep
    sweep = Sweep("growth, sessions over inboxes of one")
    one = lambda n: refuse(library, program, b"hirschberg", n, workers=3, inbox=1)
    sweep_all(pool, sweep, one, itertools.count(1), is_certain=False)
    yield sweep
    sweep = Sweep("growth, sessions of run")
    one = lambda n: refuse_in_run(library, program, b"lelann", n)
    sweep_all(pool, sweep, one, itertools.count(1), is_certain=False)
    yield sweep
    sweep = Sweep("growth, sessions of run with a journal")
    one = lambda n: refuse_with_journal(library, program, b"hirschberg", n)
    sweep_all(pool, sweep, one, itertools.count(1), is_certain=False)
    yield sweep
    yield from sweep_many_growths(pool, library, program, is_full)


def sweep_many_growths(pool, library, program, is_full):
    """Growths that are refused some in a row, and many by chance."""
    behind = growths_behind(growths_before(library, program))
    sweep = Sweep("growths in a row, sessions")
    for times in IN_A_ROW:
        one = lambda n: refuse(library, program, b"lelann", n, times=times)
        sweep_all(pool, sweep, one, behind, is_certain=False)
    yield sweep
    sweep = Sweep("growths by chance, sessions")
    seeds = itertools.product(seeds_of(is_full), CHANCES, LEADERS, behind)
    by_chance = lambda it: refuse(library, program, it[2], it[3], seed=it[0], chance=it[1])
    sweep_all(pool, sweep, by_chance, seeds, is_certain=False)
    yield sweep
