"""A worker: campaigns, and does jobs while it leads. The supervisor starts it.

    worker.py RINGD-PORT CAMPAIGN-PORT STORE-PORT

Its membership is its connection to the campaign port. The store stops a late leader: that `ringd` named this
worker is no permission to write. Any time may pass between that line and the write, and a newer term may have
begun meanwhile.
"""

import contextlib
import os
import sys
import time

from journal import Token, group_of
from lines import Campaign, Lines, Refused

# After how many seconds a worker whose campaign has ended tries again.
PAUSE = 0.05
# How many seconds are between two signs of life. It is less than the --idle of ringd, and so is a job.
LIFE = 0.3
# How many seconds a job takes.
WORK = 0.01


def campaign(me, port, door, store):
    """Campaigns in the group of the last epoch, and works while it leads. It ends when this worker is no
    member any more, when another epoch has begun, when the store refuses a write, or by OSError.

    The group is named for the epoch. So no line of ringd can be taken for one of another epoch.
    """
    _, epoch = store.ask("epoch")
    group = group_of(epoch)
    with contextlib.closing(Lines(port)) as ring, contextlib.closing(Campaign(door, group, me)) as mine:
        while str(me) in ring.ask("members", group) and store.ask("epoch")[1] == epoch:
            term = mine.term()
            if term is not None:
                lead(store, Token(int(epoch), term), me)
            mine.hear(0 if term else LIFE)


def lead(store, token, me):
    """Does one job after another, until a sign of life is due or the store refuses one. A worker that hangs in
    a job gives no sign, and so another follows it."""
    latest = time.monotonic() + LIFE
    while time.monotonic() < latest:
        _, job = store.ask("take", *token, me)
        time.sleep(WORK)  # (here the job is done; another leader may begin meanwhile)
        store.ask("did", *token, me, job)


def main():
    port, door, store = sys.argv[1:]
    me, supervisor, store = os.getpid(), os.getppid(), Lines(store)
    while os.getppid() == supervisor:
        try:
            campaign(me, port, door, store)
        except Refused:
            pass  # (late, or no such group, or all its terms are used up, or a member still: try again)
        except OSError:
            pass  # (ringd or the store does not answer now: try again)
        time.sleep(PAUSE)


if __name__ == "__main__":
    main()
