"""Reads and writes of `ringd replay` that fail, are interrupted, or move one byte, in turn."""

import itertools

from lines import text
from sweep import Bad, FAULTS, run
from table import Sweep, or_none, sweep_all


def replies_to_whole(lines, given):
    """The replies to the lines that an LF ends in these bytes."""
    return text(lines.replies[: given.count(b"\n")])


def expect(lines, what, ran, status, out, err):
    if (ran.status, ran.out, ran.err) != (status, out, err):
        raise Bad(f"{lines.name}: {what}: status {ran.status}, {len(ran.out)} bytes, {ran.err!r}; "
                  f"expected {status}, {len(out)} bytes, {err!r}")


def passes(library, program, lines, call, how, number, by_bytes):
    """One run in which that read or write goes wrong without harm; whether such a call was made."""
    wrong = {call: number, "how": how, **({"bytes": 1} if by_bytes else {})}
    ran = run(library, [program, "replay"], text(lines.commands), **wrong)
    expect(lines, f"{call} {number}, {how}", ran, 0, text(lines.replies), b"")
    return ran.told


def fails(library, program, lines, call, number, by_bytes):
    """One run in which that read or write fails; whether such a call was made."""
    given, replies = text(lines.commands), text(lines.replies)
    wrong = {call: number, **({"bytes": 1} if by_bytes else {})}
    ran = run(library, [program, "replay"], given, **wrong)
    what = f"{call} {number} fails"
    if not ran.told:
        expect(lines, what, ran, 0, replies, b"")
        return False
    if call == "read" and by_bytes:
        out = replies_to_whole(lines, given[: number - 1])
    elif call == "write" and by_bytes:
        out = replies[: number - 1]
    else:
        out = ran.out
        if not replies.startswith(out):
            raise Bad(f"{lines.name}: {what}: what was written is no front of the replies")
    expect(lines, what, ran, 1, out, FAULTS[call.encode()])
    return True


def sweep_ends(pool, library, program, files):
    for call in ("read", "write"):
        for by_bytes in (False, True):
            chosen = [file for file in files if file.name == "first_run"] if by_bytes else files
            sweep = Sweep(f"{call}s of replay{', one byte each' if by_bytes else ''}")
            for file in chosen:
                failing = lambda n: or_none(fails(library, program, file, call, n, by_bytes))
                sweep_all(pool, sweep, failing, itertools.count(1))
                for how in ("interrupt", "byte"):
                    passing = lambda n: or_none(passes(library, program, file, call, how, n, by_bytes))
                    sweep_all(pool, sweep, passing, itertools.count(1))
            yield sweep
