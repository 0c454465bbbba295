"""Syncs and writes that fail in turn in a start of `ringd run --journal --campaign` that takes a crowd of members out.

The journal has the members of an earlier life, who all leave before the first client is served. Their leaves do not fit
into one batch of the journal, so it is synced in the middle of them. If a call on it fails, the program says that its
journal failed, and ends with status 1. In any case a restart has no member left.
"""

import contextlib
import errno
import itertools

from journal import FAILED, expect, text_of
from server import Client, Lost, serving
from sweep import Bad
from table import Sweep, or_none, sweep_all

# As many groups of as many members as a group may have. A batch has 65536 bytes, and each leave 24 or more.
GROUPS, MEMBERS = [b"crowd-%02d" % number for number in range(13)], range(100, 356)
CALLS, ERRORS = ("fdatasync", "pwrite"), (errno.EIO, errno.ENOSPC)


def crowd():
    """The changes that make the groups with their members."""
    for group in GROUPS:
        yield b"create %s chang" % group
        yield from (b"join %s %d" % (group, member) for member in MEMBERS)


def expect_empty(server):
    """Sees that no group has a member. A session is served only once all have left."""
    client = Client(server.port)
    for group in GROUPS:
        expect(group, client.ask(b"members %s" % group), b"members")
    client.leave()


def empties(library, program, call, number, error):
    """One run of `run` with such a journal in which that call fails, and a restart after it; whether such a call was
    made."""
    what = f"a start that takes a crowd out, {call} {number}, {errno.errorcode[error]}"
    wrong = {call: number, "how": "fail", "error": error}
    with serving(library, program, ["run"], what, journal=text_of(crowd()), campaigns=True, **wrong) as server:
        begun = b""
        if server.listens():
            begun = server.listening()
            with contextlib.suppress(Lost):
                expect_empty(server)
        if was_made := bool(server.told()):
            if server.ends() != (1, begun, FAILED):
                raise Bad(f"status {server.run.returncode}, {server.out!r}, {server.error!r}")
        elif server.is_ended_by_us() != (True, begun, b"") or not begun:
            raise Bad(f"status {server.run.returncode}, {server.out!r}, {server.error!r}, and no call went wrong")
        server.start_anew()
        expect_empty(server)
        return was_made


def sweep_emptying(pool, library, program):
    for call in CALLS:
        sweep = Sweep(f"{call} calls of a start that takes a crowd out")
        for error in ERRORS:
            one = lambda n: or_none(empties(library, program, call, n, error))
            sweep_all(pool, sweep, one, itertools.count(1))
        yield sweep
