"""Lines over TCP: questions to ringd and to the store, and a campaign at ringd's second port."""

import select
import socket

HOST = "127.0.0.1"
# How many seconds an answer may take.
PATIENCE = 5
# These refusals say what a member knows. Each other one ends a campaign.
NEWS = "not-in-term", "no-term"


class Refused(Exception):
    """The answer was `no WORD`; the word is the exception's text."""


class Lines:
    """A connection that is made at the first question, and made anew after it was lost.

    If an answer was lost, the question is not sent again here. It may have been carried out, and
    only the caller knows whether sending it twice does harm.
    """

    def __init__(self, port):
        self.port = port
        self.socket = None

    def ask(self, *words):
        """Returns the words of the answer. Raises Refused, or OSError if there is no answer."""
        line = " ".join(str(word) for word in words)
        try:
            answer = self.exchange(line.encode() + b"\n").decode().split()
        except OSError:
            self.close()
            raise
        if answer[0] == "no":
            raise Refused(answer[1])
        return answer

    def exchange(self, line):
        """Sends a line and reads one."""
        if self.socket is None:
            self.socket = socket.create_connection((HOST, self.port), PATIENCE)
            self.socket.setsockopt(socket.IPPROTO_TCP, socket.TCP_NODELAY, 1)
        self.socket.sendall(line)
        answer = b""
        while not answer.endswith(b"\n"):
            more = self.socket.recv(65536)
            if not more:
                raise ConnectionResetError("the connection ended before the answer")
            answer += more
        return answer

    def close(self):
        """Ends the connection, if there is one."""
        if self.socket is not None:
            self.socket.close()
            self.socket = None


class Campaign:
    """A connection to the campaign port. It is a membership: when it ends, ringd takes the member out."""

    def __init__(self, port, group, number):
        self.number = number
        self.last, self.rest = [], ""  # the words of the last line, and what came after it
        self.socket = socket.create_connection((HOST, port), PATIENCE)
        self.socket.sendall(f"join {group} {number}\n".encode())
        self.hear(PATIENCE)

    def hear(self, wait):
        """Reads what ringd says within `wait` seconds, and sends a sign of life. Raises Refused, or OSError if
        the campaign is over."""
        if select.select([self.socket], [], [], wait)[0]:
            said = self.socket.recv(65536).decode()
            if not said:
                raise ConnectionResetError("the campaign has ended")
            *lines, self.rest = (self.rest + said).split("\n")
            self.last = lines[-1].split() if lines else self.last
            if self.last[:1] == ["no"] and self.last[1] not in NEWS:
                raise Refused(self.last[1])
        self.socket.sendall(b"\n")

    def term(self):
        """Returns the term in which this member leads, or None."""
        is_leader = self.last[:1] == ["leader"] and self.last[2] == str(self.number)
        return int(self.last[1]) if is_leader else None

    def close(self):
        """Resigns."""
        self.socket.close()
