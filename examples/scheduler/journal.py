#!/usr/bin/env python3
"""The journal of the store, and what must be true of it.

    examples/scheduler/journal.py FILE      prints what is wrong in a journal; status 1 if something is

A line is KIND EPOCH TERM WORKER JOB. The kinds: `epoch`, an epoch began; `take`, a leader took a job;
`did`, a leader wrote that the job is done; `late`, a leader was refused.
"""

import sys
from typing import NamedTuple


class Token(NamedTuple):
    """A leader shows its token with each write. The token with the greater epoch is newer, and in one epoch
    the token with the greater term. Tuples are compared in this way."""
    epoch: int
    term: int


def group_of(epoch):
    """Returns the name of the group of an epoch. No group has that of epoch 0, before any was begun."""
    return f"jobs-{epoch}"


class Entry(NamedTuple):
    """A line of a journal."""
    kind: str
    token: Token
    worker: int = 0
    job: int = 0

    def line(self):
        return f"{self.kind} {self.token.epoch} {self.token.term} {self.worker} {self.job}\n"


def entry_of(line):
    """The entry that a line spells."""
    kind, epoch, term, worker, job = line.split()
    return Entry(kind, Token(int(epoch), int(term)), int(worker), int(job))


def read(path):
    """The entries of a journal. A last line without its end is none: its write failed, or is not done."""
    with open(path, encoding="ascii") as lines:
        return [entry_of(line) for line in lines if line.endswith("\n")]


def order_faults(entries):
    """Writes of an older token after one of a newer. This is what the fence is for."""
    newest = Token(0, 0)
    for number, entry in enumerate(entries, start=1):
        if entry.kind in ("take", "did"):
            if entry.token < newest:
                yield f"line {number}: worker {entry.worker} wrote with {entry.token} after {newest}"
            newest = max(newest, entry.token)


def leader_faults(entries):
    """Two workers that showed one token, accepted or refused. This is what ringd is for."""
    leaders = {}
    for number, entry in enumerate(entries, start=1):
        if entry.kind != "epoch":
            first = leaders.setdefault(entry.token, entry.worker)
            if first != entry.worker:
                yield f"line {number}: workers {first} and {entry.worker} both showed {entry.token}"


def job_faults(entries):
    """Jobs that were done twice, or not in their order. This is what the scheduler is for."""
    wanted = 1
    for number, entry in enumerate(entries, start=1):
        if entry.kind == "did":
            if entry.job != wanted:
                yield f"line {number}: job {entry.job} was done, and not job {wanted}"
            wanted = entry.job + 1


def epoch_faults(entries):
    """Epochs that were begun twice or fall."""
    last = 0
    for number, entry in enumerate(entries, start=1):
        if entry.kind == "epoch":
            if entry.token.epoch <= last:
                yield f"line {number}: epoch {entry.token.epoch} began after epoch {last}"
            last = entry.token.epoch


def faults(entries):
    """All that is wrong in a journal."""
    return [fault for look in (order_faults, leader_faults, job_faults, epoch_faults)
            for fault in look(entries)]


def main():
    if len(sys.argv) != 2:
        sys.exit(__doc__)
    found = faults(read(sys.argv[1]))
    print("\n".join(found) if found else "the journal is as it should be")
    sys.exit(1 if found else 0)


if __name__ == "__main__":
    main()
