"""Ports for the programs that checks start, many of them side by side."""

import contextlib
import itertools
import os
import random
import socket
import threading

HOST = "127.0.0.1"
# Below the ports that the system gives to clients, so that no client of another run is in the way.
LOWEST, HIGHEST = 11000, 32000
# Checks that run side by side have ports of their own: `1/2` are the odd ones.
PART, PARTS = map(int, os.environ.get("CHECK_PORTS", "0/1").split("/"))
OWN = range(LOWEST + PART, HIGHEST, PARTS)
PORTS = itertools.cycle(random.sample(OWN, len(OWN)))
LOCK = threading.Lock()


def free_port():
    """Returns a port that nobody listens on, and that no other thread is given soon."""
    for _ in OWN:
        with LOCK:
            port = next(PORTS)
        with contextlib.suppress(OSError), socket.socket() as probe:
            probe.setsockopt(socket.SOL_SOCKET, socket.SO_REUSEADDR, 1)
            probe.bind((HOST, port))
            return port
    raise OSError("there is no free port")
