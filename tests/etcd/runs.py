"""Runs of `ringd run` over a journal in etcd, and the lines that they print, with the moments when these came."""

import itertools
import pathlib
import signal
import subprocess
import threading
import time

from serving import Client, Differs, short, text_of

LONG = 60
STANDS_BY = "ringd: standing by"
TAKEN_OVER = "ringd: journal taken over"
FAILED = ("ringd: journal failed", "ringd: journal unanswered")
NUMBERS = itertools.count(1)


class Run:
    """A run of the program, which serves at a socket in a folder. `before` are words before its command."""

    def __init__(self, program, folder, journal, *words, before=()):
        self.number = next(NUMBERS)
        folder = pathlib.Path(folder)
        self.socket, self.campaigns = (str(folder / f"{self.number}.{what}") for what in ("sessions", "campaigns"))
        config = folder / f"{self.number}.toml"
        config.write_bytes(text_of(7400))
        self.lines, self.changed = [], threading.Condition()
        self.began = time.monotonic()
        command = [*before, program, "run", str(config), "--journal", journal, "--socket", self.socket, *words]
        command = [self.campaigns if word == "CAMPAIGNS" else word for word in command]
        self.run = subprocess.Popen(command, stdin=subprocess.DEVNULL, stdout=subprocess.PIPE, stderr=subprocess.PIPE)
        for stream in (self.run.stdout, self.run.stderr):
            threading.Thread(target=self.read, args=(stream,), daemon=True).start()

    def read(self, stream):
        """Keeps the lines of a stream, to its end."""
        for line in stream:
            self.note(line.decode("utf-8", "replace").rstrip("\n"))
        self.note(None)

    def note(self, line):
        """Keeps a line; None is the end of a stream."""
        with self.changed:
            self.lines.append((time.monotonic(), line))
            self.changed.notify_all()

    def said(self, line):
        """The moment when the program printed a line; None if it did not."""
        return next((moment for moment, other in list(self.lines) if other == line), None)

    def has_ended(self):
        """Whether both streams have ended."""
        return sum(line is None for _, line in list(self.lines)) == 2

    def texts(self):
        """All lines."""
        return [line for _, line in list(self.lines) if line is not None]

    def faults(self):
        """All lines, without those that say that it stands by or listens."""
        return [line for line in self.texts() if line not in (STANDS_BY, self.listening())]

    def listening(self):
        """The line by which it says that it listens."""
        return f"listening {self.socket}"

    def listens(self):
        """Whether it said that it listens, and has not ended."""
        return self.said(self.listening()) is not None and not self.has_ended()

    def wait(self, line, seconds=LONG):
        """Waits for a line. The answer is when it came."""
        with self.changed:
            self.changed.wait_for(lambda: self.said(line) is not None or self.has_ended(), seconds)
        if self.said(line) is None:
            raise Differs(f"within {seconds} seconds {line!r} doesn't come, but {short(self.texts())}")
        return self.said(line)

    def wait_until_it_listens(self, seconds=LONG):
        """Waits until it listens. The answer is when it said so."""
        return self.wait(self.listening(), seconds)

    def wait_for_end(self, seconds=LONG):
        """Waits for the end. The answer is the status, and the lines that tell of a fault."""
        try:
            status = self.run.wait(timeout=seconds)
        except subprocess.TimeoutExpired as still:
            raise Differs(f"it hasn't ended after {seconds} seconds, but says {short(self.texts())}") from still
        with self.changed:
            self.changed.wait_for(self.has_ended, seconds)
        return status, self.faults()

    def end(self):
        """Kills it if it has not ended yet. The answer is the status of its end, and the lines that tell of a fault."""
        self.run.kill()
        return self.wait_for_end()

    def kill(self):
        """Kills it, and waits for its end. It must not have ended by itself."""
        status, texts = self.end()
        if status != -signal.SIGKILL:
            raise Differs(f"it ended by itself, with status {status} and {short(texts)}")

    def client(self):
        """A client of its sessions."""
        return Client(self.socket)


def see_end(run, *lines, seconds=LONG):
    """Sees that a run ends with status 1, and one of these lines."""
    status, texts = run.wait_for_end(seconds)
    if status != 1 or texts not in [[it] for it in lines]:
        raise Differs(f"the end is status {status} and {short(texts)}, and not status 1 and {' or '.join(lines)}")
