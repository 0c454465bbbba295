"""Growth refused in turn in the crates' test programs.

A test that is refused memory may pass, may end by an error, or may stop at an assertion of its own that takes memory
for granted; it never ends by a fault of its memory, and never hangs. Tests that ask once more where they are refused
memory have to pass whichever growth is refused. Tests that start threads are left out, but for some: where one side
of such a test is refused memory, the other may wait for it for ever.
"""

from collections import Counter
import itertools
import os
import re
import subprocess
import tempfile

from sweep import Bad, ROOT
from table import Sweep

# Sessions over a front, some of which fail, and two threads at one table.
SHARED = ("table::session_rows::", "table::thread_rows::")
# A service that is refused memory. If that is a thread's own memory, the fault is that no thread could be started, and
# the test stops at an assertion.
STARVED = ("table::starved_rows::",)
# Worked cases of a node, of a worker and of a table.
WORKED = (
    "elections::node_rows::", "elections::note_rows::", "elections::schedules::",
    "elections::workers::starved_worker::", "table::closing_rows::", "table::table_rows::",
)
# Tests that ask once more, by crate and by the beginnings of their names: for each growth they have to pass.
ASK_AGAIN = {
    "test_cases_tests": (
        "elections::pictures::", "elections::settle_rows::", "elections::winners::", "elections::world_rows::", "journal::",
        "lines::", *WORKED, *SHARED,
    ),
}
# Tests that start threads, and end whichever growth is refused.
THREADED = {
    "test_cases_tests": SHARED + STARVED,
    "test_server_tests": ("running::a_spent_guest_",),
}
# Tests in which each growth is refused, without a gap: worked cases of a mux, a node, a book, a table, a service and
# a worker.
WHOLE = {"test_cases_tests": WORKED + STARVED}
# What the test program says where a test ends by an error, and where it stops at an assertion.
ENDED, STOPPED = b"the test failed: its result gives status 1\n", b"\ntest stopped at "
# After how many seconds a test hangs, on a busy machine too.
SECONDS = 120
TEST = re.compile(r"^\s*#\[test\]", re.M)


def programs():
    """The test programs of all crates that have tests, whether they are built or not."""
    sources = (ROOT / "crates").glob("*/src/**/*.rt")
    crates = {it.relative_to(ROOT / "crates").parts[0] for it in sources if TEST.search(it.read_text(encoding="utf-8"))}
    return [ROOT / "crates" / it / "out" / f"{it}_tests" for it in sorted(crates)]


def tests_of(program):
    """The names of a program's tests."""
    listed = subprocess.run([program, "--list"], capture_output=True, check=True, timeout=SECONDS)
    return re.findall(r"^(\S+): test$", listed.stdout.decode(), re.M)


def is_among(program, name, listed):
    """Whether a test is among those of this list."""
    return name.startswith(listed.get(program.name, ()))


def is_left_out(library, program, name):
    """Whether a test starts threads, and is none of those that are known to end."""
    return not is_among(program, name, THREADED) and run(library, program, name, spawn=1, how="count")[1]


def numbers(program, name, is_full):
    """Which growths of a test are refused: the first forty, and then each a fifth further than the last; or ten times
    as many; or all."""
    if is_among(program, name, WHOLE):
        yield from itertools.count(1)
    each, part = (400, 50) if is_full else (40, 5)
    number = 0
    while True:
        number += 1 if number < each else number // part
        yield number


def run(library, program, name, **wrong):
    """Runs a test in which the calls go wrong that the words say: how it ended, and whether one did."""
    ours, theirs = os.pipe()
    os.set_blocking(ours, False)
    settings = {f"SWEEP_{word.upper()}": str(value) for word, value in wrong.items()}
    environment = {**os.environ, "LD_PRELOAD": str(library), "SWEEP_TELL": str(theirs), **settings}
    try:
        with tempfile.TemporaryDirectory() as folder:
            ran = subprocess.run([program, name], cwd=folder, stdin=subprocess.DEVNULL, capture_output=True,
                                 env=environment, pass_fds=[theirs], timeout=SECONDS)
        return ran, bool(os.read(ours, 1))
    except BlockingIOError:
        return ran, False
    except subprocess.TimeoutExpired:
        raise Bad(f"{program.name} {name}, {wrong}: it doesn't end") from None
    finally:
        os.close(ours)
        os.close(theirs)


def refuse(library, program, name, growth):
    """One run of a test in which this growth is refused: how it ended, or `None` where no such growth is made."""
    ran, told = run(library, program, name, growth=growth)
    ended = how(ran)
    if ended is None or (ended != "passed" and (not told or is_among(program, name, ASK_AGAIN))):
        raise Bad(f"{program.name} {name}, growth {growth}: status {ran.returncode}, {ran.stdout[-200:]!r}, "
                  f"{ran.stderr[-200:]!r}")
    return ended if told else None


def how(ran):
    """How a test ended: it passed, or it stopped by an error or an assertion of its own; `None` where it ended in
    another way."""
    if ran.returncode == 0:
        return "passed"
    if ran.returncode == 101 and ran.stderr.endswith(ENDED):
        return "stopped"
    if ran.returncode == -6 and ran.stdout.startswith(STOPPED):
        return "stopped"
    return None


def sweep_test(library, program, name, is_full):
    """The runs of one test, one after another: how many, how they ended, and what was bad. Nothing where the test is
    left out."""
    ended, runs = Counter(), 0
    try:
        if is_left_out(library, program, name):
            return None
        for number in numbers(program, name, is_full):
            runs += 1
            said = refuse(library, program, name, number)
            if said is None:
                break
            ended[said] += 1
    except Bad as bad:
        return runs, ended, [str(bad)]
    return runs, ended, []


def sweep_tests(pool, library, is_full):
    for program in programs():
        sweep, names = Sweep(""), tests_of(program)
        made = [pool.submit(sweep_test, library, program, name, is_full) for name in names]
        swept = [it for it in (each.result() for each in made) if it]
        for runs, ended, bad in swept:
            sweep.runs, sweep.told, sweep.bad = sweep.runs + runs, sweep.told + ended.total(), sweep.bad + bad
        passed = sum(not ended["stopped"] and not bad for _, ended, bad in swept)
        crate = program.name.removesuffix("_tests")
        sweep.name = f"growth, {len(swept)} of {len(names)} tests of {crate}, {passed} of which always pass"
        yield sweep
