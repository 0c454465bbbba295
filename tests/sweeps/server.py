"""The program as a server under the library that stands before the C library, and its clients."""

import contextlib
import os
import pathlib
import select
import signal
import socket
import subprocess
import tempfile
import time

from ports import HOST, free_port
from sweep import Bad

PATIENCE = 20
# How long a run in which a call went wrong, and which may go on, has to tell of a fault before a signal ends it.
MOMENT = 0.2
# How often a program is started anew because somebody else took its port.
TRIES = 5
LISTEN_FAILED = b"ringd: listen failed\n"


class Lost(Exception):
    """The connection ended before a reply came whole."""


class Client:
    """A client of the program; what it is told is kept."""

    def __init__(self, port):
        self.socket = socket.socket()
        self.socket.settimeout(PATIENCE)
        self.told, self.taken = b"", 0
        try:
            self.socket.connect((HOST, port))
        except ConnectionError:
            self.socket.close()
            raise Lost from None

    def ask(self, line):
        """Sends a line, and waits for its reply, without its LF."""
        with contextlib.suppress(ConnectionError):
            self.socket.sendall(line + b"\n")
        return self.reply()

    def reply(self):
        """The next reply."""
        while (end := self.told.find(b"\n", self.taken)) < 0:
            if not self.more():
                raise Lost
        line = self.told[self.taken : end]
        self.taken += len(line) + 1
        return line

    def send(self, text):
        """Sends a text and ends the sending."""
        with contextlib.suppress(OSError):
            self.socket.sendall(text)
            self.socket.shutdown(socket.SHUT_WR)

    def more(self):
        """Whether more came before the end of the connection."""
        try:
            part = self.socket.recv(65536)
        except ConnectionError:
            return False
        except TimeoutError:
            raise Bad(f"no reply came in {PATIENCE} s behind {self.told[-60:]!r}") from None
        self.told += part
        return bool(part)

    def leave(self):
        """Ends the sending, and takes what comes to the end of the connection."""
        self.send(b"")
        while self.more():
            pass
        self.socket.close()


class Server:
    """A run of the program that serves clients, where the calls go wrong that the names say. It has a journal if the
    bytes of one are given, and a second port if campaigns or HTTP are asked for."""

    def __init__(self, library, program, words, workers=2, inbox=64, journal=None, campaigns=False, http=False,
                 **wrong):
        self.program, self.words, self.workers, self.inbox = program, words, workers, inbox
        self.campaigns, self.http, self.may_refuse_ports = campaigns, http, {"setsockopt", "socket"} & {*wrong}
        settings = {f"SWEEP_{name.upper()}": str(value) for name, value in wrong.items()}
        self.environment = {**os.environ, "LD_PRELOAD": str(library), **settings}
        self.folder = tempfile.TemporaryDirectory()
        if journal is not None:
            path = pathlib.Path(self.folder.name) / "ring.journal"
            path.write_bytes(journal)
            self.words = [*words, "--journal", path]
        self.start()

    def start_anew(self, campaigns=None):
        """Starts the program once more, with no call going wrong, until it listens. It serves campaigns or not, as it
        did before or as it is said."""
        self.stop()
        self.environment = dict(os.environ)
        if campaigns is not None:
            self.campaigns = campaigns
        self.start()
        if not self.listens():
            raise Bad(f"a restart ends: {self.ends()}")

    def start(self):
        """Starts the program on free ports."""
        self.port, self.out, self.error, self.refusals = free_port(), b"", b"", 0
        self.is_over = False  # whether all was heard that it said
        self.ours, theirs = os.pipe()
        os.set_blocking(self.ours, False)
        file = pathlib.Path(self.folder.name) / "ring.toml"
        text = f"workers = {self.workers}\ninbox = {self.inbox}\nport = {self.port}\n"
        file.write_text(text, encoding="utf-8")
        words = [self.program, self.words[0], file, *self.words[1:]]
        if self.campaigns:
            self.second = free_port()
            words += ["--campaign", str(self.second)]
        if self.http:
            self.web = free_port()
            words += ["--http", str(self.web)]
        self.run = subprocess.Popen(words, stdin=subprocess.DEVNULL, stdout=subprocess.PIPE,
                                    stderr=subprocess.PIPE, pass_fds=[theirs],
                                    env={**self.environment, "SWEEP_TELL": str(theirs)})
        os.close(theirs)

    def told(self):
        """How often a call went wrong so far."""
        with contextlib.suppress(BlockingIOError):
            while part := os.read(self.ours, 65536):
                self.refusals += len(part)
        return self.refusals

    def listens(self):
        """Whether the program came to say that it listens; where it didn't, it ends. It is started anew where
        somebody else took a port of it."""
        for _ in range(TRIES):
            if self.says_so():
                return True
            self.error = self.run.stderr.read()
            if self.error != LISTEN_FAILED or (self.may_refuse_ports and self.told()):
                return False
            self.stop()
            self.start()
        raise Bad("each port is taken")

    def says_so(self):
        """Whether a line comes on standard output before its end."""
        until = time.monotonic() + PATIENCE
        while b"\n" not in self.out:
            ready, _, _ = select.select([self.run.stdout], [], [], max(until - time.monotonic(), 0))
            if not ready:
                raise Bad("the program neither listens nor ends")
            part = os.read(self.run.stdout.fileno(), 65536)
            if not part:
                return False
            self.out += part
        return True

    def listening(self):
        """The line by which it says so."""
        return b"listening 127.0.0.1:%d\n" % self.port

    def ends(self):
        """Its status, standard output and standard error, once it has ended by itself."""
        if not self.is_over:
            try:
                out, error = self.run.communicate(timeout=PATIENCE)
            except subprocess.TimeoutExpired:
                raise Bad("the program doesn't end") from None
            self.is_over, self.out, self.error = True, self.out + out, self.error + error
        return self.run.returncode, self.out, self.error

    def let_end(self):
        """Gives it a moment to tell of a fault. If it does, it gets the time to end that a busy machine needs."""
        if select.select([self.run.stderr], [], [], MOMENT)[0]:
            try:
                self.run.wait(timeout=PATIENCE)
            except subprocess.TimeoutExpired:
                raise Bad("it tells of a fault, and doesn't end") from None

    def is_ended_by_us(self):
        """Ends it from outside; what it said, and whether it was still there."""
        was_there = self.run.poll() is None
        self.run.send_signal(signal.SIGTERM)
        status, out, error = self.ends()
        return was_there and status == -signal.SIGTERM, out, error

    def stop(self):
        """Ends it, whatever comes of it."""
        if self.run.poll() is None:
            self.run.kill()
        self.run.wait()
        self.run.stdout.close()
        self.run.stderr.close()
        os.close(self.ours)

    def close(self):
        """Ends it, and lets all go."""
        self.stop()
        self.folder.cleanup()


@contextlib.contextmanager
def serving(library, program, words, what, **given):
    """A run of the program; what is bad in it is told with these words."""
    server = Server(library, program, words, **given)
    try:
        yield server
    except Bad as bad:
        raise Bad(f"{what}: {bad}") from None
    except Lost:
        raise Bad(f"{what}: a connection ended too early") from None
    finally:
        server.close()
