"""Growths and calls that go wrong in turn in `ringd journal`.

It prints what it prints otherwise; or it ends with status 1 and one line, after a first part of that. The file is left
as it is.
"""

import contextlib
import errno
import itertools
import pathlib
import subprocess
import tempfile

import journal
from sweep import Bad, NO_MEMORY, run
from table import Sweep, sweep_all

UNREADABLE, UNWRITTEN = journal.UNREADABLE, b"ringd: write failed\n"
# The calls, what it says if such a call fails, and how each goes wrong.
CALLS = {"growth": (NO_MEMORY, [("fail", 0)]), "open": (UNREADABLE, [("fail", errno.EACCES), ("fail", errno.EIO)]),
         "statx": (UNREADABLE, [("fail", errno.EACCES), ("fail", errno.ENOENT)]),
         "read": (UNREADABLE, [("fail", errno.EIO), ("interrupt", 0), ("byte", 0)]),
         "write": (UNWRITTEN, [("fail", errno.EIO), ("fail", errno.ENOSPC), ("fail", errno.EPIPE), ("interrupt", 0),
                               ("byte", 0)])}


class Listed:
    """A journal with a torn end, and what is printed of it."""

    def __init__(self, program, folder):
        self.file = pathlib.Path(folder, "ring.journal")
        self.bytes = journal.text_of([*journal.BEFORE, *journal.running()]) + journal.TORN + bytes(journal.ZEROS)
        self.file.write_bytes(self.bytes)
        self.command = [program, "journal", self.file]
        ran = subprocess.run(self.command, stdin=subprocess.DEVNULL, capture_output=True, timeout=60, check=True)
        self.text = ran.stdout


@contextlib.contextmanager
def listed(program):
    """A journal in a folder of its own."""
    with tempfile.TemporaryDirectory() as folder:
        yield Listed(program, folder)


def goes_wrong(library, case, call, number, how, error):
    """One run in which that call goes wrong; whether such a call was made, or `None` if there was none."""
    ran = run(library, case.command, **{call: number, "how": how, **({"error": error} if error else {})})
    ended = ran.status, ran.out, ran.err
    is_whole = ended == (0, case.text, b"")
    may_fail = ran.told and how == "fail"
    # some growths are tried again with less
    if is_whole:
        well = not may_fail or call == "growth"
    else:
        well = may_fail and (ran.status, ran.err) == (1, CALLS[call][0]) and case.text.startswith(ran.out)
    if not well or case.file.read_bytes() != case.bytes:
        name = errno.errorcode.get(error, "")
        raise Bad(f"journal, {call} {number}, {how} {name}: status {ran.status}, {ran.out!r}, {ran.err!r}")
    return True if ran.told else None


def sweep_listing(pool, library, program):
    with listed(program) as case:
        for call, (_, hows) in CALLS.items():
            sweep = Sweep(f"{call} calls of ringd journal" if call != "growth" else "growth, ringd journal")
            for how, error in hows:
                one = lambda n: goes_wrong(library, case, call, n, how, error)
                sweep_all(pool, sweep, one, itertools.count(1))
            yield sweep
