"""How many checks run at a time, when a crate's edits may be tried, and over which libraries."""

import contextlib
import os
import pathlib
import re
import shutil
import threading
import time

from crates import built_by_rt
from heard import Heard

MEMORY = 3_000_000_000  # what one check may take
PAUSE = 5  # seconds between two looks: a thread for each crate looks
SPARE = 0.7  # of a processor: if as much was idle since the last look, there is room for one more check
TICKS = os.sysconf("SC_CLK_TCK")


class Gate:
    """A run of `rt ci` during which edits are tried: what it has said so far, in a file, and the libraries that it made.

    Each library is taken, by links to its files, as soon as the run says that its crate is proved or kept, and edits are
    tried over what was taken. The crates' `out` folders will not do. In them `rt ci` puts back what an earlier run left
    there, perhaps of other sources: after it has said `rt: ok` or `rt: FAILED`, and before its last line can be read,
    which it holds back until then. So to wait for that last line would be too late, for wrong algorithms as for wrong
    bodies. A library that was not taken before `rt: ok` is not used."""

    def __init__(self, path, room):
        self.heard, self.room = Heard(path), room
        self.settled, self.looking = set(), threading.Lock()

    def look(self):
        """Looks at what the run has said, and takes the libraries of the crates that it has proved since the last look."""
        with self.looking:
            self.heard.listen()
            new = self.heard.proved - self.settled
            for crate in new:
                self.take(crate)
            if new:
                self.heard.listen()
            if self.heard.puts_back:
                for crate in new:
                    shutil.rmtree(self.library(crate), ignore_errors=True)
            self.settled |= new

    def library(self, crate):
        """Where a crate's library is, once it was taken."""
        return self.room / crate / f"{crate}.rlib"

    def take(self, crate):
        """Takes a crate's library, if it has one and all of it is there."""
        if built_by_rt(crate).is_dir():
            try:
                shutil.copytree(built_by_rt(crate), self.library(crate), copy_function=link_or_copy)
            except (OSError, shutil.Error):
                shutil.rmtree(self.library(crate), ignore_errors=True)

    def is_at_work(self):
        self.look()
        return not self.heard.has_ended

    def wait_for(self, crates):
        """Waits until all these crates are proved, or the run has ended."""
        while self.is_at_work() and not self.settled.issuperset(crates):
            time.sleep(PAUSE)


def link_or_copy(one, other):
    """Gives a file of a library a second name. rt removes such a file before it makes it anew, and never writes into it."""
    try:
        os.link(one, other)
    except OSError:
        shutil.copyfile(one, other)


def free_memory():
    meminfo = pathlib.Path("/proc/meminfo").read_text(encoding="utf-8")
    return 1024 * int(re.search(r"MemAvailable:\s+(\d+)", meminfo)[1])


def processors():
    """How many checks to run at a time: $RT_JOBS, or one for each processor."""
    if os.environ.get("RT_JOBS", "").isdigit():
        return max(1, int(os.environ["RT_JOBS"]))
    return len(os.sched_getaffinity(0))


def idle_seconds():
    """How long the processors on which this may run have had nothing to do, in all."""
    fields = map(str.split, pathlib.Path("/proc/stat").read_text(encoding="utf-8").splitlines())
    mine = {f"cpu{number}" for number in os.sched_getaffinity(0)}
    return sum(int(it[4]) + int(it[5]) for it in fields if it[0] in mine) / TICKS


class Idleness:
    """How much of the processors had nothing to do between two looks."""

    def __init__(self):
        self.looked, self.idle = time.monotonic(), idle_seconds()

    def has_room(self):
        """Whether there is room for one more check, by the time since the last look. That says nothing if it is short."""
        now, idle = time.monotonic(), idle_seconds()
        if now < self.looked + PAUSE / 2:
            return False
        spare = (idle - self.idle) / (now - self.looked)
        self.looked, self.idle = now, idle
        return spare > SPARE


class Lanes:
    """Lets as many checks run at a time as there are processors and memory for. During a run of `rt ci` a check begins only
    if a processor has nothing to do: two checks that share one take a third more of its time. Of the checks that wait the
    heaviest is the next. `library` says where a crate's library is."""

    def __init__(self, gate=None):
        self.gate, self.library = gate, gate.library if gate else built_by_rt
        self.at_work, self.waiting, self.changed, self.idleness = 0, [], threading.Condition(), Idleness()

    def most(self):
        by_memory = self.at_work + free_memory() // MEMORY
        if self.gate and self.gate.is_at_work():
            return min(self.at_work + self.idleness.has_room(), by_memory - 1)
        return max(1, min(processors(), by_memory))

    @contextlib.contextmanager
    def lane(self, weight=0):
        """A check of this weight."""
        mine = (weight, threading.get_ident())
        with self.changed:
            self.waiting.append(mine)
            while mine != max(self.waiting) or self.at_work >= self.most():
                self.changed.wait(PAUSE)
            self.waiting.remove(mine)
            self.at_work += 1
        try:
            yield
        finally:
            with self.changed:
                self.at_work -= 1
                self.changed.notify_all()
