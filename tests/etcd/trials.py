"""Trials of the built test_etcd, which appends lines to a journal and tells each one once it is settled.

Each line that a run told must be found by the next one, once and in order, whatever was killed or failed.
"""

import concurrent.futures
import contextlib
import random
import signal
import subprocess
import time

from etcd_standin import FAULTS, Keys, Standin
from serving import Differs

PATIENCE = 120
# How many seconds a run of a few lines takes at most if it takes over from one that appends all the time. If it read
# entries more slowly than the other one puts them, it would go on as long as that one.
CATCHES_UP = 20
TROUBLED = 60  # seconds of trouble among the members


def holds(lines, told, what):
    """Sees that what was told is there, each once and in order."""
    if len(set(lines)) != len(lines):
        raise Differs(f"{what}: a line is there twice")
    at = {line: place for place, line in enumerate(lines)}
    lost = [line for line in told if line not in at]
    if lost:
        raise Differs(f"{what}: {len(lost)} of {len(told)} told lines are lost, as {lost[0]!r}")
    if sorted(told, key=at.get) != told:
        raise Differs(f"{what}: the order is another")


def told_in(text):
    """The lines that a run told."""
    return [line[5:] for line in text.splitlines() if line.startswith("told ")]


class Trials:
    """Trials of a program with a journal at these members. The journals of two trials have different names."""

    def __init__(self, program, places, title):
        self.program, self.places, self.title = program, places, title

    @contextlib.contextmanager
    def begin(self, order, name, *words):
        """Begins a run. It is killed in the end if it still goes on."""
        with subprocess.Popen([self.program, order, self.places, name, *map(str, words)], stdout=subprocess.PIPE,
                              stderr=subprocess.PIPE, text=True) as going:
            try:
                yield going
            finally:
                going.kill()

    def run(self, order, name, *words, patience=PATIENCE):
        """A run to its end: its status, and what it wrote."""
        with self.begin(order, name, *words) as going:
            try:
                out, error = going.communicate(timeout=patience)
            except subprocess.TimeoutExpired:
                raise TimeoutError(f"{name}: {order} goes on after {patience} seconds") from None
            return going.returncode, out, error

    def found(self, name):
        """The lines that a run finds."""
        status, text, error = self.run("read", name)
        if status:
            raise Differs(f"read: {error.strip()}")
        return text.splitlines()

    def appends(self, order):
        """Two runs, one after another, each to its end."""
        name, wanted = f"{self.title}-{order}", []
        for word, count in (("a", 5), ("b", 40)):
            status, text, error = self.run(order, name, word, count)
            if status or not text.endswith("done\n"):
                raise Differs(f"{name}: status {status}, {text[-80:]!r}, {error.strip()}")
            wanted += [f"{word} {k}" for k in range(count)]
            if told_in(text) != wanted[-count:]:
                raise Differs(f"{name}: other lines were told")
        if self.found(name) != wanted:
            raise Differs(f"{name}: other lines were found")

    def killed(self, order, seconds):
        """Runs that are killed at random moments, each after the one before."""
        name = f"{self.title}-killed-{order}"
        draw, told = random.Random(name), []
        for life in range(8):
            with self.begin(order, name, f"k{life}", 100000) as going:
                time.sleep(seconds * draw.random())
                going.kill()
                out, error = going.communicate()
                if going.returncode != -signal.SIGKILL:
                    raise Differs(f"{name}: a run ended by itself, with status {going.returncode}: {error.strip()}")
                told += told_in(out)
            holds(self.found(name), told, name)
        if not told:
            raise Differs(f"{name}: no line was told")
        print(f"{name}: {len(told)} lines told", flush=True)

    def taken_over(self, order):
        """A run that another one takes over says so, and what it told is there. The other one catches up with it."""
        name = f"{self.title}-taken-{order}"
        with concurrent.futures.ThreadPoolExecutor(1) as pool, self.begin(order, name, "first", 100000) as first:
            out = first.stdout.readline()
            # what it writes is read all the time, since it would wait for room in a full pipe
            rest = pool.submit(first.communicate, timeout=PATIENCE)
            status, text, error = self.run("append", name, "second", 20, patience=CATCHES_UP)
            out += rest.result()[0]
        if status or not text.endswith("done\n"):
            raise Differs(f"the second one: {text[-80:]!r}, {error.strip()}")
        if not out.endswith("journal taken over\n"):
            raise Differs(f"the first one ended by {out[-80:]!r}")
        holds(self.found(name), told_in(out) + told_in(text), name)


def troubled(trials, members):
    """Members are killed and stopped while runs go on, and each run is killed or taken over."""
    end, told, draw, lives = time.monotonic() + TROUBLED, [], random.Random(7), 0
    while time.monotonic() < end:
        each = draw.randrange(3)
        lives += 1
        trials.places = members.places(each)
        with trials.begin(draw.choice(["append", "rewrite"]), "troubled", f"t{lives}", 100000) as going:
            time.sleep(2)
            trouble(members, each, draw)
            time.sleep(3)
            going.kill()
            told += told_in(going.communicate()[0])
        holds(trials.found("troubled"), told, "troubled")
    if not told:
        raise Differs(f"troubled: no line was told in {lives} lives")
    print(f"etcd, members killed and stopped: {len(told)} lines told in {lives} lives", flush=True)


def trouble(members, each, draw):
    """A member is killed, or two are stopped, for some seconds."""
    if draw.random() < 0.5:
        members.kill(each)
        time.sleep(3)
        members.start(each)
    else:
        both = (each, (each + 1) % 3)
        members.stop(*both)
        time.sleep(4)
        members.go_on(*both)


def over_standin(program):
    """The trials over a stand-in that is calm, and over three that fail, by each kind of fault."""
    calm = Trials(program, Standin().place(), "stand-in")
    for order in ("append", "rewrite"):
        calm.appends(order)
        calm.killed(order, 1.0)
        calm.taken_over(order)
    for fault in FAULTS:
        keys = Keys()
        them = [Standin(keys, rate=0.1, seed=n, faults=(fault,)) for n in range(3)]
        Trials(program, ",".join(it.place() for it in them), f"fault-{fault}").appends("rewrite")
        faults = sum(it.told.get(fault, 0) for it in them)
        if not faults:
            raise Differs(f"{fault}: no answer was a fault")
        print(f"stand-in, {fault}: {faults} faults", flush=True)


def over_etcd(program, members):
    """The trials over three members of etcd."""
    trials = Trials(program, members.places(), "etcd")
    for order in ("append", "rewrite"):
        trials.appends(order)
        trials.killed(order, 1.5)
        trials.taken_over(order)
    troubled(trials, members)
