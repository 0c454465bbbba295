"""Clients of `ringd run` while calls go wrong in turn: clients that campaign, and clients of HTTP.

In the end the program is there; or it ended before it served anybody, with its one line and status 1. With a journal,
the program ends if it can't be synced. Then a restart has what any client was told.
"""

import itertools

from failing import Gone
from journal import ENDED, FAILED
from server import serving
from sweep import Bad, FAULTS, NO_MEMORY
from table import CHANCES, FEW, IN_A_ROW, THIRD, Sweep, growths_behind, seeds_of, sweep_all

WORDS = ["run", "--sessions", "3", "--idle", "60"]
WORKERS, THREADS = 2, 8
KINDS = (b"chang", b"lelann", b"hirschberg", b"peterson")
# The calls, and how each goes wrong: a word, and how many in a row.
MOVING = (("fail", 1), ("interrupt", 1), ("byte", 1))
HOWS = {"read": MOVING, "write": MOVING, "accept": (("fail", 1), ("fail", 3), ("interrupt", 1)),
        "setsockopt": (("fail", 1),)}
# The calls of which each run makes as many.
CERTAIN = ("accept", "setsockopt")
SYNCS = ("fail", "exit", "done")
AGAIN = b"ringd: accept failed, trying again\n"
UNTHREADED, UNREADABLE = b"ringd: thread failed\n", b"ringd: config unreadable\n"
# What the program says if a call goes wrong before it listens.
AT_START = {"growth": (NO_MEMORY, UNTHREADED), "spawn": (UNTHREADED,), "read": (UNREADABLE,), "open": (UNREADABLE,),
            "write": (FAULTS[b"write"],), "setsockopt": (b"ringd: listen failed\n",), "accept": ()}


def expect_end(server, call, listens, lines):
    """The program ends since a call went wrong, and nobody was told a line."""
    status, out, error = server.ends()
    is_right = out == server.listening() and error == UNTHREADED if listens else (
        server.listening().startswith(out) and error in AT_START[call])
    if status != 1 or not is_right or lines or not server.told():
        raise Bad(f"status {status}, {out!r}, {error!r}, and {lines} lines were told")


def expect_there(server, call, how):
    """The program is there, and said nothing but that accepts failed: once for each of its two ports at most."""
    was_there, out, error = server.is_ended_by_us()
    failed = min(server.told(), 2) if (call, how) == ("accept", "fail") else 0
    said = [AGAIN * count for count in range(1, failed + 1)] or [b""]
    if not was_there or out != server.listening() or error not in said:
        raise Bad(f"it ended, or said {out!r}, {error!r}")


class Clients:
    """A kind of clients, and the runs in which they ask. A subclass has its name in the table, what the program is
    given for it, the calls that go wrong and how each does."""

    name, given, hows = "", {}, HOWS

    def come(self, server, call, how, kind):
        """The clients of one run, which count the lines that they are told."""
        raise NotImplementedError

    def talk(self, clients, number):
        """All that the clients ask in the run of this number."""
        raise NotImplementedError

    def hear_out(self, clients):
        """Reads what the clients were told before the program ended."""

    def compare_restarts(self, server, clients):
        """Starts the program again, and compares what it has with what the clients were told."""
        raise NotImplementedError

    def more(self, pool, library, program):
        """Sweeps of these clients alone."""
        return ()

    def goes_wrong(self, library, program, call, number, how="fail", **more):
        """One run in which that call goes wrong, and maybe others after it: whether one did, or `None` if none did."""
        kind = KINDS[number % len(KINDS)]
        what = f"{self.name}, {kind.decode()}, {call} {number}, {how}{more or ''}"
        wrong = {call: number, "how": how, **more}
        with serving(library, program, WORDS, what, workers=WORKERS, **self.given, **wrong) as server:
            listens = server.listens()
            clients = self.come(server, call, how, kind)
            try:
                if not listens:
                    raise Gone
                self.talk(clients, number)
                expect_there(server, call, how)
            except Gone:
                expect_end(server, call, listens, clients.lines)
            return True if server.told() else None

    def lacks_thread(self, library, program, number):
        """One run in which that thread can't be made: the program ends, before it listens if the thread is a
        worker's."""
        was_told = self.goes_wrong(library, program, "spawn", number)
        if was_told != (True if number <= THREADS else None):
            raise Bad(f"{self.name}, thread {number} is {'one' if was_told else 'none'} of the program's")
        return was_told

    def lacks_sync(self, library, program, number, how):
        """One run with a journal in which that sync fails, or the process ends before or after it, and a restart:
        whether there was such a sync, or `None`."""
        kind = KINDS[number % len(KINDS)]
        wrong = {"fdatasync": number, "how": how}
        what = f"{self.name} with a journal, {kind.decode()}, {wrong}"
        with serving(library, program, WORDS, what, workers=WORKERS, journal=b"", **self.given, **wrong) as server:
            clients = self.come(server, "fdatasync", how, kind)
            try:
                if not server.listens():
                    raise Gone
                self.talk(clients, number)
                expect_there(server, "fdatasync", how)
                return None
            except Gone:
                self.hear_out(clients)
            status, out, error = server.ends()
            wanted = (1, FAILED) if how == "fail" else (ENDED, b"")
            if (status, error) != wanted or not server.listening().startswith(out) or not server.told():
                raise Bad(f"status {status}, {out!r}, {error!r}")
            self.compare_restarts(server, clients)
            return True

    def growths_before(self, library, program):
        """How many growths the program makes before it listens."""
        more = {"growth": 1, "times": 1 << 30, "how": "count"}
        with serving(library, program, WORDS, self.name, workers=WORKERS, **self.given, **more) as server:
            if not server.listens():
                raise Bad("it doesn't listen")
            return server.told()


def sweep_clients(pool, library, program, clients, is_full):
    for call, hows in clients.hows.items():
        sweep = Sweep(f"{call}s of {clients.name}")
        for how, times in hows:
            one = lambda n: clients.goes_wrong(library, program, call, n, how, times=times)
            numbers = itertools.count(1, 1 if how == "fail" or is_full else THIRD)
            sweep_all(pool, sweep, one, numbers, is_certain=call in CERTAIN, many=FEW)
        yield sweep
    sweep = Sweep(f"spawns of {clients.name}")
    sweep_all(pool, sweep, lambda n: clients.lacks_thread(library, program, n), itertools.count(1))
    yield sweep
    sweep = Sweep(f"fdatasyncs of {clients.name} with a journal")
    for how in SYNCS:
        one = lambda n: clients.lacks_sync(library, program, n, how)
        sweep_all(pool, sweep, one, itertools.count(1), is_certain=False, many=FEW)
    yield sweep
    yield from sweep_growths(pool, library, program, clients, is_full)
    yield from clients.more(pool, library, program)


def sweep_growths(pool, library, program, clients, is_full):
    """Growths that are refused one at a time, some in a row, and many by chance."""
    sweep = Sweep(f"growth, {clients.name}")
    one = lambda n: clients.goes_wrong(library, program, "growth", n)
    sweep_all(pool, sweep, one, itertools.count(1), is_certain=False)
    yield sweep
    behind = growths_behind(clients.growths_before(library, program) + 1)
    sweep = Sweep(f"growths in a row, {clients.name}")
    for times in IN_A_ROW:
        one = lambda n: clients.goes_wrong(library, program, "growth", n, times=times)
        sweep_all(pool, sweep, one, behind, is_certain=False)
    yield sweep
    sweep = Sweep(f"growths by chance, {clients.name}")
    seeds = itertools.product(seeds_of(is_full), CHANCES, behind)
    one = lambda it: clients.goes_wrong(library, program, "growth", it[2], seed=it[0], chance=it[1])
    sweep_all(pool, sweep, one, seeds, is_certain=False)
    yield sweep
