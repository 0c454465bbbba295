"""The store: what the leaders write to. It keeps the fence.

It takes no part in the election, and does not ask for the leader. It keeps one token, the newest that it
ever accepted, and refuses every older one. It writes all that it accepts to its journal. A restarted store
reads the journal, and goes on from there.

    take EPOCH TERM WORKER        ->  job J          the job to do next; raises the fence
    did EPOCH TERM WORKER JOB     ->  ok             the job is done; raises the fence
    epoch                         ->  epoch E        the epoch that was begun last, 0 if none was
    begin                         ->  epoch E        begins an epoch, with a number that no epoch had before

A `take` or `did` with a token older than the fence is answered `no late`, and changes nothing.

The store answers when the entry is on the disk. If a write fails, nobody knows what is there. So the store ends the
connection, and refuses each later write in the same way, until it is started again.
"""

import fcntl
import os
import socketserver
import threading

import journal
from journal import Entry, Token


def opened(path):
    """Opens a journal for this process alone, and cuts off a last line without its end, which was never answered. The
    file and its name are on the disk then."""
    file = open(path, "a+b", buffering=0)
    fcntl.flock(file, fcntl.LOCK_EX | fcntl.LOCK_NB)
    file.seek(0)
    file.truncate(file.readall().rfind(b"\n") + 1)
    folder = os.open(os.path.dirname(os.path.abspath(path)), os.O_RDONLY)
    try:
        os.fsync(file.fileno())
        os.fsync(folder)
    finally:
        os.close(folder)
    return file


class Store:
    """The fence, the jobs and the journal. Each call is one step: a lock is held for it."""

    def __init__(self, path, is_fenced=True):
        self.lock = threading.Lock()
        self.is_fenced = is_fenced
        self.epoch = 0
        self.job = 1
        self.last = Entry("take", Token(0, 0))
        self.fault = None  # the first failed write
        self.file = opened(path)
        for entry in journal.read(path):
            self.count(entry)

    def count(self, entry):
        """Applies an entry to the state."""
        if entry.kind == "epoch":
            self.epoch = entry.token.epoch
        if entry.kind in ("take", "did") and entry.token >= self.last.token:
            self.last = entry  # (its token is the fence)
        if entry.kind == "did":
            self.job = entry.job + 1

    def write(self, entry):
        """Writes an entry to the journal, and only then applies it. Raises OSError after a failed write."""
        if self.fault:
            raise self.fault
        try:
            line = entry.line().encode()
            if self.file.write(line) != len(line):
                raise OSError("the journal took half a line")
            os.fsync(self.file.fileno())
        except OSError as fault:
            self.fault = fault
            raise
        self.count(entry)

    def begin_epoch(self):
        """Begins an epoch, and returns its number, which no epoch had before."""
        with self.lock:
            self.write(Entry("epoch", Token(self.epoch + 1, 0)))
            return self.epoch

    def take(self, token, worker):
        """Returns the job to do next, or None to a late leader. A leader takes its job before it works, so
        from then on its predecessor is late."""
        with self.lock:
            return self.job if self.accepts(Entry("take", token, worker, self.job)) else None

    def did(self, token, worker, job):
        """Writes that the job is done. Returns false to a late leader."""
        with self.lock:
            return self.accepts(Entry("did", token, worker, job))

    def accepts(self, entry):
        """Accepts and writes an entry, unless it is late. This is the fence."""
        is_late = self.is_fenced and entry.token < self.last.token
        self.write(entry._replace(kind="late") if is_late else entry)
        return not is_late

    def answer(self, line):
        """Returns the answer to a line."""
        word, *numbers = line.split() or [""]
        if not all(number.isdecimal() for number in numbers):
            return "no bad-line"
        numbers = [int(number) for number in numbers]
        if word == "epoch" and not numbers:
            return f"epoch {self.epoch}"
        if word == "begin" and not numbers:
            return f"epoch {self.begin_epoch()}"
        if word == "take" and len(numbers) == 3:
            job = self.take(Token(*numbers[:2]), numbers[2])
            return "no late" if job is None else f"job {job}"
        if word == "did" and len(numbers) == 4:
            return "ok" if self.did(Token(*numbers[:2]), *numbers[2:]) else "no late"
        return "no bad-line"


class Session(socketserver.StreamRequestHandler):
    """One connection: each line gets one answer."""

    def handle(self):
        try:
            for line in self.rfile:
                answer = self.server.store.answer(line.decode("ascii", "replace"))
                self.wfile.write(answer.encode() + b"\n")
        except OSError:
            pass  # (a worker that was killed, or a failed write)


class Server(socketserver.ThreadingTCPServer):
    """The store on a free port of this machine, in a thread of its own."""

    daemon_threads = True

    def __init__(self, store):
        super().__init__(("127.0.0.1", 0), Session)
        self.store = store
        self.port = self.server_address[1]
        threading.Thread(target=self.serve_forever, daemon=True).start()
