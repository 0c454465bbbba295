"""Shared by the checks of the program as a server: a client, a free port, a configuration.

A place is the number of a port, or the path of a socket as a text.
"""

import contextlib
import pathlib
import signal
import socket
import struct
import sys
import threading

from ports import HOST, free_port

PATIENCE = 20
# How many seconds a check that is stopped may take to end what it began. Then the system ends it.
LAST = 60


def end_by_signal(number, _):
    """Ends a check that is stopped by a signal, and the processes that it began. Another signal does not disturb that."""
    signal.signal(number, signal.SIG_IGN)
    signal.alarm(LAST)
    sys.exit(128 + number)


if threading.current_thread() is threading.main_thread():
    signal.signal(signal.SIGTERM, end_by_signal)


class Differs(Exception):
    """The program did something else than it should."""


def same(what, seen, wanted):
    """Compares what was seen with what is wanted."""
    if seen != wanted:
        raise Differs(f"{what}: {short(seen)}, and not {short(wanted)}")


def short(value):
    """A value as a short text for a message."""
    text = ascii(value)
    return text if len(text) <= 200 else f"{text[:200]}.."


def text_of(port, workers=2, inbox=1024):
    """The text of a configuration."""
    return f"workers = {workers}\ninbox = {inbox}\nport = {port}\n".encode()


def free_place(folder, name, is_path):
    """A free port, or the path of a socket with this name in a folder."""
    return str(pathlib.Path(folder, name)) if is_path else free_port()


def first_line(place):
    """The line by which the program says that it listens."""
    return b"listening %s\n" % (place if isinstance(place, str) else f"{HOST}:{place}").encode()


def connected(place, patience=PATIENCE):
    """A connection to a place, of which each call waits for so many seconds."""
    if isinstance(place, str):
        there = socket.socket(socket.AF_UNIX)
        # A socket with a time limit of Python's is refused at once if the kernel has no room for it yet.
        there.setsockopt(socket.SOL_SOCKET, socket.SO_SNDTIMEO, struct.pack("ll", patience, 0))
        there.connect(place)
        there.settimeout(patience)
        return there
    there = socket.create_connection((HOST, place), timeout=patience)
    there.setsockopt(socket.IPPROTO_TCP, socket.TCP_NODELAY, 1)
    return there


class Client:
    """A connection to the program."""

    def __init__(self, place, patience=PATIENCE):
        self.socket = connected(place, patience)
        self.rest = b""

    def send(self, lines):
        """Sends bytes."""
        self.socket.sendall(lines)

    def line(self):
        """The next line of the replies, and what is left at their end."""
        while b"\n" not in self.rest:
            more = self.socket.recv(65536)
            if not more:
                break
            self.rest += more
        line, end, self.rest = self.rest.partition(b"\n")
        return line + end

    def ask(self, line):
        """Sends one line and waits for its reply."""
        self.send(line)
        return self.line()

    def end_sending(self):
        """Says that no line follows."""
        self.socket.shutdown(socket.SHUT_WR)

    def all(self):
        """All replies, to their end."""
        parts = [self.rest]
        while more := self.socket.recv(1 << 20):
            parts.append(more)
        return b"".join(parts)

    def told(self, lines):
        """Sends all lines, ends the sending, and reads all replies."""
        self.send(lines)
        self.end_sending()
        replies = self.all()
        self.close()
        return replies

    def close(self):
        """Ends the connection."""
        self.socket.close()

    def reset(self):
        """Ends the connection by a reset. A socket in the file system has none: it is closed, and the program hears of a
        reset only if replies are left unread."""
        linger = struct.pack("ii", 1, 0)
        self.socket.setsockopt(socket.SOL_SOCKET, socket.SO_LINGER, linger)
        self.socket.close()


def was_killed(run):
    """Sees that a run ended by SIGKILL, and not by itself before it was killed."""
    same("how a run ended that was killed", run.wait(PATIENCE), -signal.SIGKILL)


@contextlib.contextmanager
def ended(run):
    """A run that is ended with its check, whatever comes of it."""
    try:
        yield run
    finally:
        if run.poll() is None:
            run.kill()
        run.wait()
        for stream in (run.stdout, run.stderr):
            if stream:
                stream.close()
