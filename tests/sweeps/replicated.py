"""Growths, calls and threads that go wrong in turn in `ringd run --journal etcd://..`.

The program begins over a new journal, over one with groups, or takes one over from a process that was killed. A session
asks commands, one by one. In some runs another process takes the journal over before the last one.

If a call of the connection to etcd goes wrong, the request is sent again, so the program goes on as usual. If memory
is refused to a request, it is tried again too. Elsewhere a command may be refused, or the program ends with its one
line. In the end the journal in etcd has all that was told, and nothing in part. If the program has ended, another one
takes over and shows the same.
"""

import contextlib
import errno

from failing import Gone
from identity import Identity
from journal import BEFORE, ENDED, FAILED, SPARED, running
from journals.changes import history_of, line_of, text_of_changes
from looking import FAST, FOREVER, UNANSWERED, sweep_looking
from members import Journal, Members
from ports import HOST
from server import LISTEN_FAILED, Client, serving
from states import Session, reply_of
from sweep import Bad, NO_MEMORY
from table import IN_A_ROW, THIRD, Sweep, sweep_all

# The commands that a session asks, and the one during which another process has taken over.
COMMANDS = [("c", ("create", "peterson")), ("c", ("join", Identity(7, 3))), ("c", ("join", Identity(0, 3))),
            ("c", ("join", Identity(0, 2))), ("c", ("start",)), ("c", ("leave", 2)), ("c", ("members",)),
            ("c", ("who", 3)), ("c", ("start",)), ("", ("groups",))]
LAST = ("c", ("join", Identity(0, 9)))
# How each call goes wrong: a word, and an error by its number.
DYING = (("exit", 0), ("done", 0))
MOVING = (("interrupt", 0), ("byte", 0), *DYING, ("half", 0))
CALLS = {"connect": (("fail", errno.ECONNREFUSED), ("fail", errno.ETIMEDOUT), ("interrupt", 0), *DYING),
         "read": (("fail", errno.ECONNRESET), ("fail", errno.EAGAIN), *MOVING[:-1]),
         "write": (("fail", errno.EPIPE), ("fail", errno.EAGAIN), *MOVING),
         "setsockopt": (("fail", errno.ENOBUFS),), "poll": (("fail", errno.ENOMEM), ("interrupt", 0)),
         "socket": (("fail", errno.EMFILE),), "lookup": (("fail", 0),)}
# How many times as fast the pauses are in runs with pauses.
STANDING = 20
STANDS_BY, UNTHREADED, TAKEN_OVER = (
    b"ringd: standing by\n", b"ringd: thread failed\n", b"ringd: journal taken over\n")
# Of reads, writes, polls and options of sockets, only those of the connections to etcd go wrong.
OUTWARD = {"outward": 1}
# How many more calls are tried than a run makes in which none goes wrong.
MORE = 3
# Of the first growths of a row, each one of this many is tried.
STEP, STEP_FULL = 21, 3
# At how many bytes of all requests, and of all replies, a connection fails.
PLACES, PLACES_FULL = 50, 1000
# If another process takes over: how many calls before and after the end of the commands are tried.
ABOUT = {"growth": (20, 60), "read": (4, 3), "write": (4, 3)}
# What the program may say if it ends before it listens, and after that.
AT_START = {"growth": (NO_MEMORY, UNTHREADED), "spawn": (UNTHREADED,), "socket": (LISTEN_FAILED,)}
LATER = {"growth": (UNTHREADED,), "spawn": (UNTHREADED,)}
# The first thread renews the lease. Without it, no other keys than these are put.
OF_LEASE = {"ids", "lease"}


class Case:
    """What a journal has at first."""

    def __init__(self, name, changes=(), has_lease=False):
        self.name, self.changes, self.has_lease = name, changes, has_lease
        self.groups = dict(history_of(text_of_changes(changes)).last_groups())


NEW = Case("over a new journal")
KEPT = Case("over a journal", [*BEFORE, *running()])
LONG = Case("that shortens a journal", [*BEFORE, *running(), *SPARED])
TAKEN = Case("that takes over", KEPT.changes, has_lease=True)


class Run:
    """A run of the program over a journal, in which a call goes wrong, and maybe others after it."""

    def __init__(self, case, members, call, number, how="fail", error=0, **more):
        self.case, self.call, self.number, self.how = case, call, number, how
        self.lasts = more.get("times") == FOREVER
        self.journal = Journal(members, case.changes, case.has_lease)
        # only the name of a machine is looked up
        self.place = self.journal.place("localhost" if call == "lookup" else HOST)
        self.wrong = {call: number, "how": how, "error": error, "haste": STANDING if case.has_lease else 1, **more}
        self.what = f"run {case.name} in etcd, {call} {number}, {how} {errno.errorcode.get(error, '')} {more or ''}"

    def go(self, library, program):
        """Makes the run: whether a call went wrong, or `None` if none did."""
        with serving(library, program, ["run", "--journal", self.place], self.what, **self.wrong) as server:
            # only a refused growth may refuse a command
            session = Session(server, self.call if self.call == "growth" else "", self.how, self.case.groups)
            listens = server.listens()
            try:
                self.talk(server, session, listens)
                was_told = server.told()
            except Gone:
                self.expect_end(server, session, listens)
                was_told = server.told()
                session.expect(self.journal.groups(), "in etcd")
                self.expect_next(server, session)
            self.journal.close()
            return True if was_told else None

    def talk(self, server, session, listens):
        """Asks all commands, and sees that the program is there and that the journal has what was told."""
        if not listens:
            raise Gone
        for name, command in COMMANDS:
            session.ask(name, command)
        was_there, out, error = server.is_ended_by_us()
        if not was_there and server.told():
            raise Gone  # (the call was one of the thread that renews the lease, after the last command)
        if not was_there or out != server.listening() or error not in (b"", STANDS_BY):
            raise Bad(f"it ended, or said {out!r}, {error!r}")
        session.expect(self.journal.groups(), "in etcd")

    def expect_end(self, server, session, listens):
        """The program has ended by its line, since a call went wrong. It can lack a thread only before it serves."""
        status, out, error = server.ends()
        error = error.removeprefix(STANDS_BY)
        is_right = (status, error) in self.endings(server, listens) and not (error == UNTHREADED and session.lines)
        if not is_right or not server.listening().startswith(out):
            raise Bad(f"status {status}, {out!r}, {error!r}")
        if self.call == "spawn" and self.number == 1 and not self.journal.changed() <= OF_LEASE:
            raise Bad(f"without a thread for the lease it changed {self.journal.changed()}")

    def endings(self, server, listens):
        """How the program may end by itself: the status, and what it says."""
        if not server.told():
            return ()
        if self.how in ("exit", "done", "half"):
            return ((ENDED, b""),)
        if self.lasts:
            return ((1, FAILED if listens else UNANSWERED),)
        return [(1, line) for line in (LATER if listens else AT_START).get(self.call, ())]

    def expect_next(self, server, session):
        """Another process takes the journal over, and has the same groups."""
        self.journal.end_lease()
        server.start_anew()
        session.expect(self.journal.groups(), "after the next start")
        shown_by(server, self.journal.groups())


class Superseded(Run):
    """A run whose journal another process takes over before the last command."""

    def talk(self, server, session, listens):
        """The last command has no reply, and does nothing."""
        if not listens:
            raise Gone
        for name, command in COMMANDS:
            session.ask(name, command)
        self.journal.supersede()
        states = session.states
        try:
            session.ask(*LAST)
        finally:
            session.states = states
        raise Bad(f"a process that was superseded answers {LAST}")

    def endings(self, server, listens):
        """It also ends if no call went wrong."""
        return [*super().endings(server, listens), (1, TAKEN_OVER)]


def shown_by(server, groups):
    """Sees that a program shows these groups."""
    client = Client(server.port)
    for name, command in [("", ("groups",)), *((name, ("members",)) for name in groups)]:
        reply = client.ask(line_of(name, command)[:-1]).decode()
        if reply != reply_of(groups, name, command):
            raise Bad(f"the next process answers {reply!r} about {name}")
    client.leave()


def calls_of(library, program, members, case, call, **more):
    """How many such calls the program makes before it listens, and in all. The thread that renews the lease makes some
    more or fewer."""
    run = Run(case, members, call, 1, "count", times=FOREVER, **OUTWARD, **more)
    with serving(library, program, ["run", "--journal", run.place], run.what, **run.wrong) as server:
        session = Session(server, "", "count", case.groups)
        listens, first = server.listens(), server.told()
        run.talk(server, session, listens)
        return first, server.told() + MORE


class Sweeps:
    """The sweeps of `run` over journals in etcd."""

    def __init__(self, pool, library, program, members, is_full):
        self.pool, self.library, self.program, self.is_full = pool, library, program, is_full
        self.members = members

    def make(self, sweep, numbers, case, call, how="fail", error=0, kind=Run, **more):
        """Makes the runs of these numbers."""
        one = lambda n: kind(case, self.members, call, n, how, error, **more).go(self.library, self.program)
        sweep_all(self.pool, sweep, one, numbers, is_certain=False)

    def counts(self, case, call, **more):
        """How many such calls there are before the program listens, and in all."""
        return calls_of(self.library, self.program, self.members, case, call, **more)

    def growths(self):
        """Growths that are refused one at a time, and some in a row."""
        for case, step in ((NEW, 1), (KEPT, 2), (TAKEN, THIRD), *([(LONG, 1)] if self.is_full else [])):
            sweep = Sweep(f"growth, run {case.name} in etcd")
            numbers = range(1, self.counts(case, "growth")[1], 1 if self.is_full else step)
            self.make(sweep, numbers, case, "growth")
            yield sweep
        sweep = Sweep("growths in a row, run over a journal in etcd")
        for times in IN_A_ROW:
            numbers = range(1, self.counts(KEPT, "growth")[1], STEP_FULL if self.is_full else STEP)
            self.make(sweep, numbers, KEPT, "growth", times=times, haste=STANDING)
        yield sweep

    def calls(self):
        """Calls of the connection that go wrong one at a time."""
        for call, hows in CALLS.items():
            sweep = Sweep(f"{call} calls of run with a journal in etcd")
            for how, error in hows:
                for case in (KEPT, *([NEW, TAKEN] if self.is_full else [])):
                    # if the answer to a claim is lost, the program stands by
                    numbers = range(1, self.counts(case, call, haste=STANDING)[1])
                    self.make(sweep, numbers, case, call, how, error, haste=STANDING, **OUTWARD)
            yield sweep

    def bytes(self):
        """Reads and writes of one byte each, of which one fails: in the middle of a request or of its reply."""
        sweep = Sweep("reads and writes of run with a journal in etcd, one byte each")
        for call in ("read", "write"):
            count = self.counts(KEPT, call, bytes=1)[1]
            numbers = range(1, count, count // (PLACES_FULL if self.is_full else PLACES))
            self.make(sweep, numbers, KEPT, call, "fail", errno.ECONNRESET, bytes=1, **OUTWARD)
        yield sweep

    def ends(self):
        """Calls of the connection that all fail from one on: no member can be connected, or none answers."""
        sweep = Sweep("calls of run with a journal in etcd that all fail from one on")
        for call, numbers in (("connect", range(1, 3)), ("read", range(*self.counts(KEPT, "read")))):
            self.make(sweep, numbers, KEPT, call, times=FOREVER, haste=FAST, **OUTWARD)
        yield sweep

    def superseded(self):
        """Growths and calls about the moment when another process takes the journal over."""
        sweep = Sweep("growth and calls, run that is superseded in etcd")
        for call, (before, behind) in ABOUT.items():
            last = self.counts(KEPT, call)[1]
            for how, error in CALLS.get(call, (("fail", 0),)):
                numbers = range(last - before, last + behind)
                self.make(sweep, numbers, KEPT, call, how, error, kind=Superseded, **OUTWARD)
        yield sweep

    def threads(self):
        """Threads that can't be made."""
        sweep = Sweep("threads of run with a journal in etcd")
        for case in (NEW, KEPT, TAKEN):
            self.make(sweep, range(1, self.counts(case, "spawn")[1]), case, "spawn")
        yield sweep


def sweep_replicated(pool, library, program, is_full):
    with contextlib.closing(Members()) as members:
        sweeps = Sweeps(pool, library, program, members, is_full)
        yield from sweeps.growths()
        yield from sweeps.calls()
        yield from sweeps.bytes()
        yield from sweeps.ends()
        yield from sweeps.superseded()
        yield from sweeps.threads()
        yield from sweep_looking(pool, library, program, members, KEPT.changes)
