"""Many clients that join and vanish, and one that sends many bytes."""

import concurrent.futures
import time

from campaigns.waiting import wait_empty
from serving import Client, same

# how many clients of a flood are there at once
AT_ONCE = 12


def check_flood(port, doors, count):
    """Clients that join and vanish, in all ways."""
    same("reply", Client(port).told(b"create flood chang\n"), b"ok\n")
    for number in range(1, count + 1):
        client = Client(doors)
        client.send(b"join flood %d\n" % number)
        if number % 3 == 0:
            same("reply", client.line(), b"ok\n")
        client.close() if number % 2 else client.reset()
    wait_empty(port, ["flood"])


def check_more(port, doors, count):
    """A flood in other groups, of as many clients as were asked for, some of them at once."""
    groups = [f"more{place}" for place in range(4)]
    for group in groups:
        same("reply", Client(port).told(b"create %s peterson\n" % group.encode()), b"ok\n")

    def flood(first):
        for number in range(first, count + 1, AT_ONCE):
            client = Client(doors)
            client.send(b"join more%d %d\n" % (number % 4, number))
            if number % 5:
                same("reply", client.line(), b"ok\n")
            client.close()

    with concurrent.futures.ThreadPoolExecutor(AT_ONCE) as crowd:
        list(crowd.map(flood, range(1, AT_ONCE + 1)))  # (raises what a flood raised)
    wait_empty(port, groups)


def check_many_bytes(port, doors, count):
    """A client that sends many bytes and never reads, beside one that campaigns."""
    same("reply", Client(port).told(b"create bytes chang\n"), b"ok\n")
    one, other = Client(doors), Client(doors)
    one.send(b"join bytes 1\n")
    for _ in range(count // 65536):
        one.send(b"x" * 65536)
    other.send(b"join bytes 2\n")
    same("reply", other.line(), b"ok\n")
    began = time.monotonic()
    one.close()
    while not (line := other.line()).endswith(b" 2\n"):
        same("more lines", bool(line), True)
    took = time.monotonic() - began
    other.close()
    wait_empty(port, ["bytes"])
    return took
