"""Growths and calls that go wrong in turn in `ringd journal etcd://..`.

It prints what it prints of a file with the same bytes, since a request is sent again. If memory is refused, it may end
with status 1 and its one line, after a first part of that. If all calls of a kind fail, it ends with another line. It
puts nothing.
"""

import errno
import itertools
import pathlib
import tempfile

from journals.changes import text_of_changes
from members import Journal
from ports import HOST
from sweep import Bad, NO_MEMORY, run
from table import Sweep, sweep_all

# The calls, and how each goes wrong: a word, and an error by its number.
MOVING = (("interrupt", 0), ("byte", 0))
CALLS = {"growth": (("fail", 0),), "connect": (("fail", errno.ECONNREFUSED), ("interrupt", 0)),
         "read": (("fail", errno.ECONNRESET), *MOVING), "write": (("fail", errno.EPIPE), *MOVING),
         "setsockopt": (("fail", errno.ENOBUFS),), "poll": (("fail", errno.ENOMEM), ("interrupt", 0)),
         "socket": (("fail", errno.EMFILE),), "lookup": (("fail", 0),)}
# How many calls fail if all do from one on, and how many times as fast the pauses are then.
FOREVER, FAST = 1 << 30, 400
UNANSWERED = b"ringd: journal unanswered\n"


class Look:
    """A journal in etcd, and what the program prints of it."""

    def __init__(self, library, program, members, changes):
        self.library, self.program, self.journal = library, program, Journal(members, changes)
        with tempfile.TemporaryDirectory() as folder:
            file = pathlib.Path(folder, "ring.journal")
            file.write_bytes(text_of_changes(changes))
            self.text = run(library, [program, "journal", file]).out

    def goes_wrong(self, call, number, how, error=0, **more):
        """One run in which that call goes wrong, and maybe others after it; whether one did, or `None` if none did."""
        # only the name of a machine is looked up
        place = self.journal.place("localhost" if call == "lookup" else HOST)
        wrong = {call: number, "how": how, "error": error, "outward": 1, **more}
        ran = run(self.library, [self.program, "journal", place], **wrong)
        ended = ran.status, ran.out, ran.err
        if ended not in self.endings(call, ran, more) or self.journal.changed():
            name = errno.errorcode.get(error, "")
            raise Bad(f"journal in etcd, {call} {number}, {how} {name}: {ended}, and {self.journal.changed()} were put")
        return True if ran.told else None

    def endings(self, call, ran, more):
        """How the program may end: its status, and what it writes."""
        if more and ran.told:
            yield 1, b"", UNANSWERED
            return
        yield 0, self.text, b""
        if call == "growth" and ran.told and self.text.startswith(ran.out):
            yield 1, ran.out, NO_MEMORY


def sweep_looking(pool, library, program, members, changes):
    """The sweeps of `ringd journal` over a journal in etcd with these changes."""
    look = Look(library, program, members, changes)
    for call, hows in CALLS.items():
        sweep = Sweep(f"{call} calls of ringd journal in etcd" if call != "growth" else "growth, ringd journal in etcd")
        for how, error in hows:
            sweep_all(pool, sweep, lambda n: look.goes_wrong(call, n, how, error), itertools.count(1))
        yield sweep
    sweep = Sweep("calls of ringd journal in etcd that all fail from one on")
    for call in ("connect", "read", "write"):
        one = lambda n: look.goes_wrong(call, n, "fail", errno.ECONNRESET, times=FOREVER, haste=FAST)
        sweep_all(pool, sweep, one, itertools.count(1))
    yield sweep
