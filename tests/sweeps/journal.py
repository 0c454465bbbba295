"""Calls on the journal's files that go wrong in turn in `ringd run --journal`, and growths that are refused, in its start
and while it serves. In some runs the service rewrites the journal while it runs.

The program begins with a journal that has a torn end and that its start shortens. One client asks line by line, and
then sends many changes at once, so that the file grows. A call fails, is interrupted or moves one byte, or the process
ends at it. Then the program says that its journal failed and ends with status 1; or it ends at the call; or all replies
are as they have to be. After that it is started once more, with no call going wrong. Each change with a reply has to be
there. A change without a reply is there whole, with all changes before it, or not at all.
"""

import contextlib
import errno
import functools
import itertools
import subprocess
import zlib

from failing import REFUSED
from server import PATIENCE, Client, Lost, serving
from sweep import Bad, NO_MEMORY
from table import FEW, THIRD, Sweep, or_none, sweep_all

# The calls, and how each goes wrong: a word, and an error by its number.
FAILING = [("fail", errno.EIO), ("fail", errno.ENOSPC)]
ENDING = [("exit", 0), ("done", 0)]
HOWS = {"open": [*FAILING, *ENDING], "statx": [*FAILING[:1], *ENDING], "flock": [*FAILING[:1], *ENDING],
        "unlink": [*FAILING[:1], *ENDING], "rename": [*FAILING, *ENDING], "fsync": [*FAILING, *ENDING],
        "fdatasync": [*FAILING, *ENDING],
        "pwrite": [*FAILING, *ENDING, ("half", 0), ("byte", 0), ("interrupt", 0)],
        "write": [*FAILING, *ENDING, ("half", 0), ("byte", 0), ("interrupt", 0)],
        "read": [*FAILING[:1], ("exit", 0), ("byte", 0), ("interrupt", 0)], "spawn": [("fail", 0)]}
# The calls on the files of the journal alone: no program goes on after one that fails.
OF_JOURNAL = ("statx", "flock", "unlink", "rename", "fsync", "fdatasync", "pwrite")
# The ways in which a process ends at a call, and its status then.
ENDS_AT_CALL, ENDED = ("exit", "done", "half"), 86
# The changes in the journal before the program starts, those after them that a start spares, and the torn end.
BEFORE = (b"create a chang", b"join a 1", b"start a", b"know a 1 1 1")
SPARED = (b"join a 9998", b"leave a 9998") * 40
TORN, ZEROS = b"join a 9999 #0000", 100
GROUP = b"group-of-16-byte"
# As many changes as fill the zeros ahead of the text, and as many as make it so long that the service rewrites it. The
# calls that a rewriting makes.
MANY, LONG = 1500, 6000
REWRITING = ("unlink", "open", "write", "fsync", "rename")
# In how many parts the changes are sent, each at once.
PARTS = 15
CONFIG, UNREADABLE = b"ringd: config unreadable\n", b"ringd: journal unreadable\n"
FAILED = b"ringd: journal failed\n"
# What the program may say if such a call fails.
FAULTS = {"open": {CONFIG, UNREADABLE, FAILED}, "statx": {UNREADABLE}, "flock": {UNREADABLE}, "unlink": {FAILED},
          "rename": {FAILED}, "fsync": {FAILED}, "fdatasync": {FAILED}, "pwrite": {FAILED},
          "write": {FAILED, b"ringd: write failed\n"}, "read": {CONFIG, UNREADABLE},
          "spawn": {b"ringd: thread failed\n"}}
# What it may say if memory is refused in its start, before it listens or soon after.
LACKING = (NO_MEMORY, *FAULTS["spawn"])
KINDS = (b"lelann", b"chang", b"hirschberg", b"peterson")


def text_of(changes):
    """The text of a journal of these changes."""
    first = b"ringd journal 1 life 1"
    lines, check = [b"%s #%08x\n" % (first, zlib.crc32(first))], 0
    for change in changes:
        check = zlib.crc32(change, check)
        lines.append(b"%s #%08x\n" % (change, check))
    return b"".join(lines)


def steps(many):
    """The lines that the client asks, each with its reply. The last `many` are sent some at once."""
    for line, reply in [(b"create b lelann", b"ok"), (b"join b 2", b"ok"), (b"join b 3/7", b"ok"),
                        (b"join b 3", b"no member"), (b"start b", b"term 1"), (b"leave b 2", b"ok"),
                        (b"create %s chang" % GROUP, b"ok"), (b"join a 2", b"ok"), (b"start a", b"term 2")]:
        yield line, reply
    for number in range(many // 2):
        yield b"join %s %d/65535" % (GROUP, 4294967000 - number % 200), b"ok"
        yield b"leave %s %d" % (GROUP, 4294967000 - number % 200), b"ok"


class Groups:
    """The groups after some of the lines, as `groups` and `members` list them, and their terms. They are those of
    BEFORE at first."""

    def __init__(self):
        self.members, self.terms = {}, {}
        for change in BEFORE:
            self.after(change, b"ok")

    def after(self, line, reply):
        """Notes a line that was carried out."""
        word, name, *rest = line.split(b" ")
        if reply.startswith(b"no ") or word == b"know":
            return
        if word == b"create":
            self.members[name], self.terms[name] = [], 0
        elif word == b"join":
            self.members[name] = [*self.members[name], *rest]
        elif word == b"leave":
            self.members[name] = [it for it in self.members[name] if it.split(b"/")[0] != rest[0]]
        else:
            self.terms[name] += 1

    def shown(self):
        """Returns the name of each group, its members as they are listed, and how many terms it has."""
        return [(name, b" ".join([b"members", *self.members[name]]), self.terms[name]) for name in self.members]


def shown_by(server):
    """Returns the same as a program shows it. The first term of a has the leader that is in the journal."""
    client = Client(server.port)
    names = client.ask(b"groups").split(b" ")[1:]
    shown = [(name, client.ask(b"members %s" % name), len(client.ask(b"terms %s" % name).split(b" ")) - 1)
             for name in names]
    terms = client.ask(b"terms a").split(b" ")
    client.leave()
    if terms[1] != b"1:1":
        raise Bad(f"the first term of a is shown as {terms[1]!r}")
    return shown


@functools.cache
def lines_of(many):
    """The same lines, each with its reply."""
    return tuple(steps(many))


@functools.cache
def states_of(many):
    """What the groups show after each number of these lines, none included."""
    groups, states = Groups(), []
    for line, reply in lines_of(many):
        states.append(groups.shown())
        groups.after(line, reply)
    return [*states, groups.shown()]


def talk(server, lines, many):
    """Asks the lines, as far as the session goes, and the last `many` of them some at once. The answer is how many
    replies came, and how many lines were sent."""
    client, sent = None, 0
    try:
        client = Client(server.port)
        for line, reply in lines[:len(lines) - many]:
            sent += 1
            expect(line, client.ask(line), reply)
        while sent < len(lines):
            some = lines[sent:sent + many // PARTS]
            sent += len(some)
            client.socket.sendall(b"".join(line + b"\n" for line, _ in some))
            for line, reply in some:
                expect(line, client.reply(), reply)
        client.leave()
    except (Lost, ConnectionError):
        pass
    return (client.told.count(b"\n") if client else 0), sent


def expect(line, seen, wanted):
    if seen != wanted:
        raise Bad(f"{line!r} is answered {seen!r}, and not {wanted!r}")


def expect_states(shown, many, told, sent):
    """Sees that the groups are as after some of the lines: at least those that were answered, and at most those that
    were sent."""
    if shown not in states_of(many)[told:sent + 1]:
        raise Bad(f"{told} lines were answered, {sent} were sent, and a restart shows {shown}")


def expect_end(server, call, how):
    """The program has ended as it has to, or it is there. If a call went wrong it may be about to end by itself, and
    gets a moment for that. If it must end, it gets the time that a busy machine needs. It may be ended from outside
    between its line and its end."""
    must_end = how in ENDS_AT_CALL or (how == "fail" and call in OF_JOURNAL)
    if server.told() and must_end:
        with contextlib.suppress(subprocess.TimeoutExpired):
            server.run.wait(timeout=PATIENCE)
    elif server.told():
        server.let_end()
    was_there, out, error = server.is_ended_by_us()
    status = server.run.returncode
    if was_there and not error:
        if server.told() and must_end:
            raise Bad("it goes on")
        return
    if how in ENDS_AT_CALL:
        well = status == ENDED and not error
    else:
        well = (status == 1 or was_there and not must_end) and error in FAULTS[call] and how in ("fail", "interrupt")
    if not well or not server.listening().startswith(out) or not server.told():
        raise Bad(f"status {status}, {out!r}, {error!r}")


def goes_wrong(library, program, call, number, how, error, many=MANY):
    """One run of `run` with a journal in which that call goes wrong, and a restart after it; whether such a call was
    made."""
    lines = lines_of(many)
    wrong = {call: number, "how": how, **({"error": error} if error else {})}
    name = errno.errorcode.get(error, "")
    journal = text_of(BEFORE + SPARED) + TORN + bytes(ZEROS)
    with serving(library, program, ["run"], f"run, {call} {number}, {how} {name}", journal=journal, **wrong) as server:
        has_begun = server.listens()
        told, sent = talk(server, lines, many) if has_begun else (0, 0)
        expect_end(server, call, how)
        was_made = bool(server.told())
        if not was_made and told != len(lines):
            raise Bad(f"{told} of {len(lines)} lines were answered, and no call went wrong")
        server.start_anew()
        expect_states(shown_by(server), many, told, sent)
        return was_made


def running():
    """The changes of a group of each kind, whose last term is running."""
    for kind in KINDS:
        yield from (line % kind for line in (
            b"create %%s %s" % kind, b"join %s 1", b"start %s", b"know %s 1 1 1", b"join %s 7/9", b"join %s 3",
            b"leave %s 1", b"start %s", b"start %s"))


def lacks_memory(library, program, number, spared=()):
    """One run of `run` in which that growth is refused, most likely in its start over a journal with these spared
    changes too, and a restart after it: whether a growth was refused, or `None` if there was none."""
    groups, changes = Groups(), [*BEFORE, *running()]
    for change in changes:
        groups.after(change, b"ok")
    journal = text_of([*changes, *spared]) + TORN + bytes(ZEROS)
    with serving(library, program, ["run"], f"run, growth {number}", journal=journal, growth=number) as server:
        begun = server.listening() if server.listens() else b""
        if server.told():
            server.let_end()
        was_there, out, error = server.is_ended_by_us()
        # it may be ended from outside between its line and its end
        lacked = server.told() and (was_there or server.run.returncode == 1) and error in LACKING
        if out != begun or not (lacked or (was_there and begun and not error)):
            raise Bad(f"{out!r}, {error!r}, status {server.run.returncode}")
        was_told = server.told()
        server.start_anew()
        if shown_by(server) != groups.shown():
            raise Bad(f"a restart shows {shown_by(server)}")
        return True if was_told else None


def talk_alone(server, lines):
    """Asks the lines one by one, as far as the session goes. A line that is refused memory is sent again. The answer is
    how many were answered, and how many were sent."""
    told = sent = 0
    try:
        client = Client(server.port)
        for line, reply in lines:
            sent += 1
            while (seen := client.ask(line)) == REFUSED:
                pass
            expect(line, seen, reply)
            told += 1
        client.leave()
    except (Lost, ConnectionError):
        pass
    return told, sent


def lacks_while_serving(library, program, number, many):
    """One run of `run` in which that growth is refused while it serves many changes, and a restart after it: whether a
    growth was refused, or `None` if there was none. The program may end: if the growth is one of its last threads, before
    it answers a line, and if it is one of its journal."""
    lines = lines_of(many)
    with serving(library, program, ["run"], f"run, growth {number} of {many} changes", journal=text_of(BEFORE),
                 growth=number) as server:
        if not server.listens():
            raise Bad(f"growth {number} is one of the start")
        told, sent = talk_alone(server, lines)
        if told < len(lines):
            server.let_end()
        was_there, _, error = server.is_ended_by_us()
        was_told = server.told()
        ends = error == FAILED or (error in LACKING and not told)
        lacked = was_told and (was_there or server.run.returncode == 1) and ends
        serves = was_there and not error and (told == len(lines) or was_told)
        if not serves and not lacked:
            raise Bad(f"{told} of {len(lines)} lines were answered, and it says {error!r}")
        server.start_anew()
        expect_states(shown_by(server), many, told, sent)
        return True if was_told else None


def growths_of_start(library, program):
    """How many growths the program makes over such a journal before it listens."""
    with serving(library, program, ["run"], "run", journal=text_of(BEFORE), growth=1, times=1 << 30,
                 how="count") as server:
        if not server.listens():
            raise Bad("it doesn't listen")
        return server.told()


def sweep_growths(pool, library, program):
    """Growths that are refused in starts, and while the service serves and rewrites its journal."""
    for name, spared in (("keep", ()), ("shorten", SPARED)):
        sweep = Sweep(f"growth, starts of run that {name} a journal")
        one = lambda n: lacks_memory(library, program, n, spared)
        sweep_all(pool, sweep, one, itertools.count(1), is_certain=False)
        yield sweep
    first = growths_of_start(library, program) + 1
    for name, many, step in (("keeps", MANY, 1), ("rewrites", LONG, THIRD)):
        sweep = Sweep(f"growth, run that {name} a journal")
        one = lambda n: lacks_while_serving(library, program, n, many)
        sweep_all(pool, sweep, one, itertools.count(first, step), is_certain=False, many=FEW)
        yield sweep


def sweep_journal(pool, library, program):
    for call, hows in HOWS.items():
        sweep = Sweep(f"{call} calls of run with a journal")
        for how, error in hows:
            one = lambda n: or_none(goes_wrong(library, program, call, n, how, error))
            sweep_all(pool, sweep, one, itertools.count(1))
        yield sweep
    for call in REWRITING:
        sweep = Sweep(f"{call} calls of run that rewrites a journal")
        for how, error in HOWS[call]:
            one = lambda n: or_none(goes_wrong(library, program, call, n, how, error, LONG))
            sweep_all(pool, sweep, one, itertools.count(1))
        yield sweep
    yield from sweep_growths(pool, library, program)
