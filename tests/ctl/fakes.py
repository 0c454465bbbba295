"""Services of this check, which have their replies ready and keep each line that they receive."""

import contextlib
import errno
import socket
import struct
import threading
import time

from checking import same_text
from serving import HOST, PATIENCE, Differs, same

# The defaults of ringctl.
USUAL_PORT, USUAL_CAMPAIGNS = 7400, 7401


class Fake:
    """A service that gives each client these bytes, then ends its sending or resets, and keeps what it is asked."""

    def __init__(self, replies, port=0, host=HOST, how="end", path=None):
        self.replies, self.how, self.asked = replies, how, b""
        if path:
            self.socket = socket.socket(socket.AF_UNIX)
            self.socket.bind(str(path))
        else:
            self.socket = socket.socket(socket.AF_INET6 if ":" in host else socket.AF_INET)
            self.socket.setsockopt(socket.SOL_SOCKET, socket.SO_REUSEADDR, 1)
            bind(self.socket, host, port)
        self.socket.listen()
        self.port = None if path else self.socket.getsockname()[1]
        self.has_ended = threading.Event()
        self.thread = threading.Thread(target=self.serve, daemon=True)
        self.thread.start()

    @property
    def address(self):
        return f"{HOST}:{self.port}"

    def serve(self):
        """Serves one client after another, until the socket is closed."""
        with contextlib.suppress(OSError):
            while True:
                client, _ = self.socket.accept()
                with client, contextlib.suppress(OSError):
                    self.serve_one(client)
                self.has_ended.set()

    def serve_one(self, client):
        """Gives the replies, and reads to the client's end."""
        if self.how == "reset":
            self.asked += client.recv(65536)
            client.setsockopt(socket.SOL_SOCKET, socket.SO_LINGER, struct.pack("ii", 1, 0))
            return
        client.sendall(self.replies)
        if self.how == "end":
            client.shutdown(socket.SHUT_WR)
        while more := client.recv(65536):
            self.asked += more

    def __enter__(self):
        return self

    def __exit__(self, *_):
        self.socket.shutdown(socket.SHUT_RDWR)
        self.socket.close()
        self.thread.join(PATIENCE)

    def had(self, lines):
        """Waits for the client's end, and compares all that it asked with these."""
        self.has_ended.wait(PATIENCE)
        same_text("what the service was asked", self.asked, lines)

    def had_nothing(self):
        """Sees that no client has asked anything. One more client comes last, so all others were read to their end."""
        with socket.create_connection((HOST, self.port), PATIENCE) as last:
            same("whether the last client is answered", last.recv(1) != b"", True)
        same_text("what the service was asked", self.asked, b"")


class Pieces(Fake):
    """A service that gives its replies in these pieces, each after a while, and ends."""

    def serve_one(self, client):
        for piece in self.replies:
            time.sleep(0.7)
            client.sendall(piece)


def bind(listener, host, port):
    """Takes a port; one that somebody else has is waited for."""
    until = time.monotonic() + PATIENCE
    while True:
        try:
            return listener.bind((host, port))
        except OSError as error:
            if error.errno != errno.EADDRINUSE or time.monotonic() > until:
                raise Differs(f"port {port} can't be listened on: {error}") from error
            time.sleep(0.2)


def text(lines):
    """Lines with their ends."""
    return b"".join(line + b"\n" for line in lines)
