"""What a process uses: its threads, its descriptors and its memory."""

import os
import pathlib
import time

from serving import same

# For how many seconds nothing changes in a process at rest.
REST = 1


def figure_of(pid, name):
    """A figure of a process, of those that are given in kilobytes, in bytes."""
    lines = pathlib.Path(f"/proc/{pid}/status").read_text(encoding="utf-8").splitlines()
    return next(int(line.split()[1]) * 1024 for line in lines if line.startswith(f"{name}:"))


def resident(pid):
    """The resident memory of a process in bytes."""
    return figure_of(pid, "VmRSS")


def used(pid):
    """The threads, the descriptors and the resident bytes of a process."""
    return len(os.listdir(f"/proc/{pid}/task")), len(os.listdir(f"/proc/{pid}/fd")), resident(pid)


def at_rest(pid):
    """What a process uses, once the number of its threads and descriptors has been the same for a second. The program
    closes a connection some time after its client, and later on a busy machine."""
    seen, since = used(pid), time.monotonic()
    while time.monotonic() < since + REST:
        time.sleep(0.02)
        now = used(pid)
        if now[:2] != seen[:2]:
            since = time.monotonic()
        seen = now
    return seen


def settled(pid, before, seconds):
    """What a process uses, once its threads and descriptors are as many as before. That takes at most `seconds`
    seconds."""
    until = time.monotonic() + seconds
    while used(pid)[:2] != before[:2] and time.monotonic() < until:
        time.sleep(0.05)
    now = used(pid)
    same("threads and descriptors", now[:2], before[:2])
    return now
