"""Waits until clients that have gone are no members."""

import time

from serving import PATIENCE, Client, Differs, same


def wait_empty(port, groups):
    """Waits until no group has members."""
    wanted = b"members\n" * len(groups)
    lines = b"".join(b"members %s\n" % group.encode() for group in groups)
    seen = b""
    for _ in range(10 * PATIENCE):
        seen = Client(port).told(lines)
        if seen == wanted:
            return
        time.sleep(0.1)
    same("members at the end", seen, wanted)


def wait_gone(port, group, number):
    """Waits until a number is no member."""
    for _ in range(50 * PATIENCE):
        members = Client(port).told(b"members %s\n" % group.encode()).split()[1:]
        if str(number).encode() not in members:
            return
        time.sleep(0.02)
    raise Differs(f"{number} is still a member of {group}")
