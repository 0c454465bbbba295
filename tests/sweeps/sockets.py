"""Calls on sockets, and threads, that go wrong in turn in the program as a server.

Three clients come to `serve`: one asks line by line, one sends all its lines at once beside it, and one comes last.
Each works in a group of its own, so the replies of each are the same whatever befalls the others.
"""

import itertools
import time

from server import PATIENCE, Client, Lost, serving
from sweep import Bad
from table import Sweep, or_none, sweep_all

LINES = (
    (b"create a chang", b"ok"), (b"join a 3", b"ok"), (b"join a 1", b"ok"), (b"start a", b"term 1"),
    (b"members a", b"members 3 1"), (b"leave a 3", b"ok"), (b"hello", b"no bad-line"))
AT_ONCE = (
    (b"create b peterson", b"ok"), (b"join b 7", b"ok"), (b"join b 7", b"no member"), (b"members b", b"members 7"))
LATE = ((b"create c lelann", b"ok"), (b"start c", b"no empty"), (b"members c", b"members"))
CONNECTIONS = 3
RUN_SESSIONS = 4
UNREADABLE = b"ringd: config unreadable\n"
AGAIN = b"ringd: accept failed, trying again\n"


def text(lines):
    return b"".join(line + b"\n" for line, _ in lines)


def replies(lines):
    return b"".join(reply + b"\n" for _, reply in lines)


def ask_all(client, lines):
    """Asks the lines one by one, as far as the session goes."""
    try:
        for line, _ in lines:
            client.ask(line)
    except Lost:
        pass


def talk(server):
    """All three sessions; what each client was told, with what it has to be told. Fewer where the program takes
    no more."""
    told = []
    try:
        slow = Client(server.port)
        told.append((slow, LINES))
        ask_all(slow, LINES[:3])
        quick = Client(server.port)
        told.append((quick, AT_ONCE))
        quick.send(text(AT_ONCE))
        quick.leave()
        ask_all(slow, LINES[3:])
        slow.leave()
        late = Client(server.port)
        told.append((late, LATE))
        ask_all(late, LATE)
        late.leave()
    except Lost:
        for client, _ in told:
            client.leave()
    return [(client.told, replies(lines)) for client, lines in told]


def expect_end(server, status, out, error):
    ended = server.ends()
    if ended != (status, out, error):
        raise Bad(f"status {ended[0]}, {ended[1]!r}, {ended[2]!r}")


def passes(library, program, call, how, number, by_bytes):
    """One run of `serve` in which that call goes wrong without harm; whether such a call was made."""
    wrong = {call: number, "how": how, **({"bytes": 1} if by_bytes else {})}
    words = ["serve", "--connections", str(CONNECTIONS)]
    with serving(library, program, words, f"serve, {call} {number}, {how}", **wrong) as server:
        if not server.listens():
            expect_end(server, 0, server.listening(), b"")
        for told, whole in talk(server):
            if told != whole:
                raise Bad(f"a client is told {told!r}, and not {whole!r}")
        expect_end(server, 0, server.listening() + b"closed %d\n" % CONNECTIONS, b"")
        return bool(server.told())


def fails(library, program, call, number, by_bytes):
    """One run of `serve` in which that read or write fails; whether such a call was made. One session at most ends
    early, with the replies that were written, and where it asks line by line with a front of them by whole lines;
    or the configuration can't be read, or standard output can't be written."""
    wrong = {call: number, **({"bytes": 1} if by_bytes else {})}
    words = ["serve", "--connections", str(CONNECTIONS)]
    with serving(library, program, words, f"serve, {call} {number} fails", **wrong) as server:
        listening, closed = server.listening(), b"closed %d\n" % CONNECTIONS
        if not server.listens():
            status, out, error = server.ends()
            is_front = call == "write" and listening.startswith(out) and error == b"ringd: write failed\n"
            if status != 1 or not (is_front or (call == "read" and out == b"" and error == UNREADABLE)):
                raise Bad(f"status {status}, {out!r}, {error!r}")
            return True
        early = 0
        for told, whole in talk(server):
            if told != whole:
                early += 1
                if not whole.startswith(told) or (call == "read" and not (told == b"" or told.endswith(b"\n"))):
                    raise Bad(f"a client is told {told!r}, which is no front of {whole!r}")
        status, out, error = server.ends()
        well = (status, out, error) == (0, listening + closed, b"")
        if call == "write" and early == 0 and status == 1:
            is_front = (listening + closed).startswith(out) and out != listening + closed
            well = is_front and error == b"ringd: write failed\n"
        if not well or early > (1 if server.told() else 0):
            raise Bad(f"{early} sessions ended early, status {status}, {out!r}, {error!r}")
        return bool(server.told())


def is_shut(server):
    """Whether the program comes to take no more clients."""
    until = time.monotonic() + PATIENCE
    while time.monotonic() < until:
        try:
            Client(server.port).leave()
        except Lost:
            return True
        time.sleep(0.001)
    return False


def come(server, lists):
    """A client for each of these lists of lines, which was answered the first of them."""
    guests = []
    for lines in lists:
        client = Client(server.port)
        ask_all(client, lines[:1])
        guests.append((client, lines))
    return guests


def go_on(server, guests):
    """The clients ask what is left of their lines, and leave; each was told all of its replies."""
    for client, lines in guests:
        ask_all(client, lines[1:])
        client.leave()
        if client.told != replies(lines):
            raise Bad(f"a client is told {client.told!r}, and not {replies(lines)!r}")


def ends_behind(library, program, call, number, workers):
    """One run of `serve` in which that accept fails, or that thread can't be made: it takes no more clients, those that
    are there are answered to their end, and then it ends with the fault; or it ends before it listens, where
    the thread is a worker's. Whether such a call was made."""
    error = b"ringd: accept failed\n" if call == "accept" else b"ringd: thread failed\n"
    sessions = number - 1 - (workers if call == "spawn" else 0)
    words = ["serve", "--connections", str(CONNECTIONS)]
    what = f"serve with {workers} workers, {call} {number} fails"
    with serving(library, program, words, what, workers=workers, **{call: number}) as server:
        listens = server.listens()
        if listens != (sessions >= 0):
            raise Bad(f"it {'listens' if listens else 'ends before it listens'}")
        if not listens:
            expect_end(server, 1, b"", error)
            return True
        guests = come(server, (LINES, AT_ONCE, LATE)[:sessions])
        if sessions >= CONNECTIONS:
            go_on(server, guests)
            expect_end(server, 0, server.listening() + b"closed %d\n" % CONNECTIONS, b"")
            return bool(server.told())
        if call == "spawn":
            expect_none(Client(server.port))
        if not is_shut(server):
            raise Bad("it takes more clients")
        go_on(server, guests)
        expect_end(server, 1, server.listening(), error)
        return True


def expect_none(client):
    """The client's connection ends without a reply."""
    ask_all(client, LINES[:1])
    client.leave()
    if client.told:
        raise Bad(f"a session without a thread is told {client.told!r}")


def goes_on(library, program, number, times):
    """One run of `run` in which so many accepts fail from that one on: it says so once, tries again, and answers all
    clients; whether such a call was made."""
    words = ["run", "--sessions", str(RUN_SESSIONS)]
    what = f"run, {times} accepts from {number} on fail"
    with serving(library, program, words, what, accept=number, times=times) as server:
        if not server.listens():
            raise Bad(f"it ends: {server.ends()}")
        for told, whole in talk(server):
            if told != whole:
                raise Bad(f"a client is told {told!r}, and not {whole!r}")
        was_there, out, error = server.is_ended_by_us()
        if not was_there or out != server.listening() or error != (AGAIN if server.told() else b""):
            raise Bad(f"it ended, or said {out!r}, {error!r}")
        return bool(server.told())


def run_lacks_thread(library, program, number, workers):
    """One run of `run` in which that thread can't be made: it ends with the fault, before it listens where the thread
    is a worker's, and serves nobody; whether such a call was made."""
    words = ["run", "--sessions", str(RUN_SESSIONS)]
    what = f"run with {workers} workers, spawn {number} fails"
    with serving(library, program, words, what, workers=workers, spawn=number) as server:
        listens = server.listens()
        if listens != (number > workers):
            raise Bad(f"it {'listens' if listens else 'ends before it listens'}")
        if number <= workers + RUN_SESSIONS:
            expect_end(server, 1, server.listening() if listens else b"", b"ringd: thread failed\n")
            return True
        was_there, _, error = server.is_ended_by_us()
        if not was_there or error or server.told():
            raise Bad(f"it ended, or said {error!r}")
        return False


def sweep_sockets(pool, library, program):
    for call in ("read", "write"):
        for by_bytes in (False, True):
            sweep = Sweep(f"{call}s of serve{', one byte each' if by_bytes else ''}")
            failing = lambda n: or_none(fails(library, program, call, n, by_bytes))
            sweep_all(pool, sweep, failing, itertools.count(1))
            for how in ("interrupt", "byte"):
                passing = lambda n: or_none(passes(library, program, call, how, n, by_bytes))
                sweep_all(pool, sweep, passing, itertools.count(1))
            yield sweep


def sweep_threads(pool, library, program):
    for call in ("accept", "spawn"):
        sweep = Sweep(f"{call}s of serve")
        for workers in (1, 2, 8):
            failing = lambda n: or_none(ends_behind(library, program, call, n, workers))
            sweep_all(pool, sweep, failing, itertools.count(1))
        if call == "accept":
            interrupted = lambda n: or_none(passes(library, program, call, "interrupt", n, False))
            sweep_all(pool, sweep, interrupted, itertools.count(1))
        yield sweep
    sweep = Sweep("accepts of run")
    for times in (1, 2):
        failing = lambda n: or_none(goes_on(library, program, n, times))
        sweep_all(pool, sweep, failing, itertools.count(1))
    yield sweep
    sweep = Sweep("spawns of run")
    for workers in (1, 2, 8):
        failing = lambda n: or_none(run_lacks_thread(library, program, n, workers))
        sweep_all(pool, sweep, failing, itertools.count(1))
    yield sweep
