"""Clients of HTTP next to a load: long polls of a group that changes, and scrapes of the metrics."""

import contextlib
import multiprocessing
import re
import selectors
import socket
import time

HOST = "127.0.0.1"
GROUP, MEMBERS = "watched", 16
HEAD = re.compile(rb"HTTP/1\.1 200 [^\r]*\r\n(?:[^\r]+\r\n)*?content-length: ([0-9]+)\r\n(?:[^\r]+\r\n)*\r\n")
# the shortest wait for answers, in seconds
SHORTEST = 0.005
# how often it is asked whether the first term is decided, and the seconds between
TRIES, PAUSE = 1000, 0.01
PLACE = re.compile(rb'"place":([0-9]+)')


class Failed(Exception):
    """The program answered something else than was wanted."""


class Link:
    """A connection of HTTP, on which one request waits for its answer."""

    def __init__(self, port):
        self.socket, self.rest, self.since = connect(port), b"", 0
        self.place = 0

    def ask(self, path):
        """Sends a request."""
        self.since = time.monotonic()
        self.socket.sendall(b"GET %s HTTP/1.1\r\nHost: localhost\r\n\r\n" % path.encode())

    def poll(self):
        """Asks to hear of the next change."""
        self.ask(f"/v1/groups/{GROUP}?after={self.place}&wait=60")

    def answer(self):
        """The body of the answer once it is whole; until then `None`."""
        part = self.socket.recv(1 << 20)
        self.rest += part
        head = HEAD.match(self.rest)
        if not part or not (head or self.rest[:12] == b"HTTP/1.1 200"[:len(self.rest)]):
            raise Failed(f"an answer is {self.rest[:60]}")
        if not head or len(self.rest) < head.end() + int(head[1]):
            return None
        body, self.rest = self.rest[head.end():], b""
        return body


def connect(port):
    """A connection to a port."""
    link = socket.create_connection((HOST, port), timeout=60)
    link.setsockopt(socket.IPPROTO_TCP, socket.TCP_NODELAY, 1)
    return link


class Session:
    """A session that changes the group."""

    def __init__(self, port):
        self.socket = connect(port)
        self.replies = self.socket.makefile("rb")
        self.is_full = False

    def expect(self, line, reply):
        """Sends a line and compares its reply."""
        self.socket.sendall(line)
        if self.replies.readline() != reply:
            raise Failed(f"another reply to {line} than was wanted")

    def make(self):
        """Makes the group, whose first term has begun."""
        self.expect(b"create %s chang\n" % GROUP.encode(), b"ok\n")
        for member in range(1, MEMBERS + 1):
            self.expect(b"join %s %d\n" % (GROUP.encode(), member), b"ok\n")
        self.expect(b"start %s\n" % GROUP.encode(), b"term 1\n")
        for member in range(1, MEMBERS + 1):
            self.wait_for_leader(member)

    def wait_for_leader(self, member):
        """Asks until a member knows its leader: polls would hear of that too."""
        for _ in range(TRIES):
            self.socket.sendall(b"who %s %d\n" % (GROUP.encode(), member))
            if self.replies.readline().startswith(b"leader 1 "):
                return
            time.sleep(PAUSE)
        raise Failed("the first term was not decided")

    def change(self):
        """One more member joins, or leaves."""
        word = "leave" if self.is_full else "join"
        self.is_full = not self.is_full
        self.expect(f"{word} {GROUP} {MEMBERS + 1}\n".encode(), b"ok\n")


class Watch:
    """All clients of HTTP, which one thread serves, and what they have seen."""

    def __init__(self, words, port, web):
        self.words, self.session = words, Session(port)
        self.session.make()
        self.polls, self.scraper = [Link(web) for _ in range(words.polls)], Link(web)
        self.ready, self.late, self.scrapes = selectors.DefaultSelector(), [], 0
        for link in (*self.polls, self.scraper):
            self.ready.register(link.socket, selectors.EVENT_READ, link)
        self.heard, self.changed, self.is_asked, self.began = 0, None, False, None

    def begin(self):
        """Each poll asks for the group as it is, and then for news."""
        for link in self.polls:
            link.ask(f"/v1/groups/{GROUP}")
        while not all(link.place for link in self.polls):
            self.take(1, self.note)
        for link in self.polls:
            link.poll()
        self.began = time.monotonic()

    def take(self, seconds, note):
        """Reads what comes until these seconds have passed."""
        for key, _ in self.ready.select(seconds):
            body = key.data.answer()
            if body is not None:
                note(key.data, body)

    def note(self, link, body):
        """Notes the place of an answer."""
        link.place = int(PLACE.search(body)[1])

    def hear(self, link, body):
        """Notes when a poll heard of a change, and asks again. It notes when the metrics came."""
        if link is self.scraper:
            self.scrapes, self.is_asked = self.scrapes + 1, False
            return
        self.note(link, body)
        self.late.append(time.monotonic() - self.changed)
        self.heard += 1
        link.poll()

    def run(self, stopped):
        """Changes the group and scrapes, so many times a second, until it is stopped. All polls hear of each change."""
        next_change = next_scrape = time.monotonic() + 0.2
        while not stopped.is_set() or self.heard:
            now = time.monotonic()
            if now >= next_change and self.heard in (0, len(self.polls)):
                self.heard, self.changed = 0, now
                if stopped.is_set():
                    return
                self.session.change()
                next_change = now + 1 / self.words.changes
            if now >= next_scrape and not self.is_asked:
                self.scraper.ask("/metrics")
                self.is_asked, next_scrape = True, next_scrape + 1 / self.words.scrapes
            self.take(max(min(next_change, next_scrape) - now, SHORTEST), self.hear)


def watch(words, port, web, stopped, pipe):
    """The process of the clients. It sends a word once they wait, and at the end what they have seen."""
    try:
        clients = Watch(words, port, web)
        clients.begin()
        pipe.send(None)
        clients.run(stopped)
        pipe.send((clients.late, clients.scrapes / (time.monotonic() - clients.began)))
    except (Failed, OSError) as fault:
        pipe.send(fault)
        pipe.send(fault)


class Seen:
    """What the clients have seen: how late polls heard of changes, in seconds, and how many scrapes came a second."""

    def __init__(self):
        self.late, self.scrapes = [], 0


@contextlib.contextmanager
def watching(words, port, web):
    """The clients, in a process of their own. It gives what they will have seen at the end."""
    fork = multiprocessing.get_context("fork")
    stopped, (ours, theirs) = fork.Event(), fork.Pipe()
    process = fork.Process(target=watch, args=(words, port, web, stopped, theirs))
    process.start()
    seen = Seen()
    try:
        if fault := ours.recv():
            raise fault
        yield seen
        stopped.set()
        end = ours.recv()
        if isinstance(end, Exception):
            raise end
        seen.late, seen.scrapes = end
    finally:
        process.kill()
        process.join()
