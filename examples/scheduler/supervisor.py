"""The supervisor: keeps the workers running, and gives them a group to campaign in.

It does not find out which worker leads, or hangs, or was cut off: `ringd` takes a member out when its
connection ends or falls silent, and starts a term if that member led. One thing is left to do here. If `ringd`
does not know the group of the last epoch, it was restarted without a journal and has forgotten everything. Then
a new epoch begins, with a group of its own. The same is done when the terms of the group are used up.
"""

import pathlib
import subprocess
import sys
import threading

from journal import group_of
from lines import Lines, Refused

WORKER = pathlib.Path(__file__).with_name("worker.py")
# How many seconds are between two looks at the workers and at ringd.
LOOK = 0.1
# How many terms a group has.
TERMS = 1000


class Supervisor:
    """Keeps `count` workers running. The number of a worker as a member is that of its process, which no other
    process has while it lives: two workers with one number would show one token."""

    def __init__(self, ring_port, door_port, store_port, count, tell=lambda text: None):
        words = sys.executable, "-B", WORKER, ring_port, door_port, store_port
        self.words = [str(word) for word in words]
        self.ring, self.store = Lines(ring_port), Lines(store_port)
        self.tell = tell
        self.workers = [None] * count  # (their processes)
        self.is_over = threading.Event()

    def run(self):
        """Works until `is_over` is set."""
        said = None  # (why nobody answered last time)
        while not self.is_over.wait(LOOK):
            self.workers = [self.kept(worker) for worker in self.workers]
            try:
                self.look()
                said = None
            except Refused as refusal:
                self.tell(f"ringd: no {refusal}")
            except OSError as fault:
                if str(fault) != said:
                    self.tell(f"nobody answers: {fault}")
                said = str(fault)
        for worker in filter(None, self.workers):
            worker.kill()
            worker.wait()

    def kept(self, worker):
        """Returns this worker, or another one in its place if it has ended."""
        if worker is not None and worker.poll() is None:
            return worker
        return subprocess.Popen(self.words, stdin=subprocess.DEVNULL, start_new_session=True)

    def look(self):
        """Begins an epoch if one is due."""
        group = group_of(*self.store.ask("epoch")[1:])
        try:
            _, *terms = self.ring.ask("terms", group)
        except Refused as refusal:
            if str(refusal) != "no-group":
                raise
            terms = None
        if terms is None or len(terms) == TERMS:
            self.begin()

    def begin(self):
        """Begins an epoch with a group of its own."""
        group = group_of(*self.store.ask("begin")[1:])
        self.ring.ask("create", group, "chang")
        self.tell(f"{group} begins")
