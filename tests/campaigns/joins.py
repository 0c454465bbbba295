"""Clients by themselves: joins that are refused, a silent client, and clients with one number."""

import contextlib
import time

from campaigns.waiting import wait_empty
from serving import PATIENCE, Client, Differs, same


def check_refusals(port, doors):
    """First lines that are no join, and joins that are refused."""
    same("reply", Client(port).told(b"create full chang\njoin full 1\n"), b"ok\nok\n")
    for line, wanted in [(b"join nogroup 1\n", b"no no-group\n"), (b"join full 1\n", b"no member\n"),
                         (b"who full 1\n", b"no bad-line\n"), (b"\n", b"no bad-line\n"),
                         (b"x" * 200 + b"\n", b"no bad-line\n"), (b"join full 0\n", b"no bad-line\n")]:
        client = Client(doors)
        client.send(line)
        same(f"replies to {line[:20]}", client.all(), wanted)
        client.close()
    same("replies to nothing", Client(doors).told(b""), b"")
    same("replies", Client(port).told(b"members full\nleave full 1\n"), b"members 1\nok\n")


def check_idle(port, doors, idle):
    """A client that is silent is let go after a while, and one that sends is not."""
    same("reply", Client(port).told(b"create still chang\n"), b"ok\n")
    silent, alive = Client(doors), Client(doors)
    # before the last line of the silent client
    began = time.monotonic()
    silent.send(b"join still 2\n")
    same("reply", silent.line(), b"ok\n")
    alive.send(b"join still 1\n")
    same("reply", alive.line(), b"ok\n")
    alive.socket.settimeout(0.1)
    told, at = b"", None
    while time.monotonic() < began + idle + PATIENCE and at is None:
        alive.send(b"\n")
        with contextlib.suppress(TimeoutError):
            told = alive.line()
            if told.startswith(b"leader") and told.endswith(b" 1\n"):
                at = time.monotonic() - began
    if at is None or at < idle - 0.1:
        raise Differs(f"a silent leader was followed after {at} s, and not after {idle} s: {told}")
    same("members", Client(port).told(b"members still\n"), b"members 1\n")
    alive.close()
    silent.close()
    wait_empty(port, ["still"])
    return at


def lead(doors, group, number):
    """A client that campaigns until it leads, and the term in which it does."""
    client = Client(doors)
    client.send(b"join %s %d\n" % (group.encode(), number))
    same("reply", client.line(), b"ok\n")
    while (words := client.line().split())[:1] != [b"leader"]:
        same("a line before a leader", words[:1] in ([b"undecided"], [b"no"]), True)
    same("leader", int(words[2]), number)
    return client, int(words[1])


def check_one_number(port, doors):
    """Clients that take one number, one after another, never lead in the same term."""
    same("reply", Client(port).told(b"create alone chang\n"), b"ok\n")
    last = 0
    for _ in range(5):
        client, term = lead(doors, "alone", 7)
        if term <= last:
            raise Differs(f"a second client of one number leads term {term} after term {last}")
        last = term
        client.close()
        wait_empty(port, ["alone"])
