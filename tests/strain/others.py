"""The other clients: those that are connected when a flood begins, and those that connect meanwhile.

Each is a thread that asks again and again, and notes how long each answer took.
"""

import contextlib
import json
import re
import threading
import time

from serving import PATIENCE, Client, Differs, same

LENGTH = re.compile(rb"\r\ncontent-length: ([0-9]+)\r\n")
# The pause between two questions of a client, in seconds, and that between two changes.
PACE, CHANGE = 0.01, 0.05
# How many terms a flood may start in its group.
TERMS = 900
# How long a client that connects waits before it tries again.
TRY = 1


def asked(path):
    """A request."""
    return b"GET %s HTTP/1.1\r\nHost: localhost\r\n\r\n" % path.encode()


def fetch(client, path):
    """The body of a good answer over a connection."""
    client.send(asked(path))
    return answer(client, path)


def answer(client, path):
    """The body of a good answer that was asked for."""
    while b"\r\n\r\n" not in client.rest:
        more(client)
    head, _, client.rest = client.rest.partition(b"\r\n\r\n")
    same(f"the first line for {path}", head.partition(b"\r\n")[0], b"HTTP/1.1 200 OK")
    length = int(LENGTH.search(head + b"\r\n")[1])
    while len(client.rest) < length:
        more(client)
    body, client.rest = client.rest[:length], client.rest[length:]
    return body


def more(client):
    """Reads some bytes more."""
    got = client.socket.recv(65536)
    if not got:
        raise Differs("the connection of another client has ended")
    client.rest += got


class Asks:
    """`who` in a session that stays."""

    def __init__(self, places, group):
        self.client, self.line = Client(places["sessions"]), b"who %s 1\n" % group.encode()

    def ask(self):
        """Asks once. The answer is when it began to wait."""
        began = time.monotonic()
        words = self.client.ask(self.line).split()
        same("the reply to who", words[0], b"leader")
        return began


class Campaigns:
    """A member that campaigns, and is pushed the leader of each term that a session starts."""

    def __init__(self, places, group):
        self.group = group.encode()
        self.session, self.client = Client(places["sessions"]), Client(places["campaigns"])
        same("a group", self.session.ask(b"create %s chang\n" % self.group), b"ok\n")
        same("a join", self.client.ask(b"join %s 1\n" % self.group), b"ok\n")
        self.hear(1)

    def hear(self, term):
        """Waits until it is told that it leads this term."""
        while (words := self.client.line().split()) != [b"leader", b"%d" % term, b"1"]:
            if words[:1] not in ([b"undecided"], [b"leader"]):
                raise Differs(f"a member that campaigns was told {words}")

    def ask(self):
        """Starts a term, and waits for the news of its leader."""
        self.client.send(b"\n")
        began = time.monotonic()
        words = self.session.ask(b"start %s\n" % self.group).split()
        same("the reply to start", words[0], b"term")
        self.hear(int(words[1]))
        return began


class Polls:
    """A long poll, which a session answers by a change of its group."""

    def __init__(self, places, group):
        self.group, self.joins = f"{group}p", False
        self.session, self.client = Client(places["sessions"]), Client(places["http"])
        same("a group", self.session.ask(b"create %s chang\n" % self.group.encode()), b"ok\n")
        self.place = json.loads(fetch(self.client, f"/v1/groups/{self.group}"))["place"]

    def ask(self):
        """Asks for news, makes some, and waits for the answer."""
        path = f"/v1/groups/{self.group}?after={self.place}&wait=60"
        self.client.send(asked(path))
        time.sleep(CHANGE)
        self.joins = not self.joins
        began = time.monotonic()
        line = b"join %s 7\n" if self.joins else b"leave %s 7\n"
        same("a change", self.session.ask(line % self.group.encode()), b"ok\n")
        news = json.loads(answer(self.client, path))
        same("the members that a poll hears of", len(news["members"]), int(self.joins))
        self.place = news["place"]
        return began


class Gets:
    """A GET on a connection that stays."""

    def __init__(self, places, _):
        self.client = Client(places["http"])

    def ask(self):
        """Asks once."""
        began = time.monotonic()
        same("health", fetch(self.client, "/healthz"), b"ok\n")
        return began


def visit(place, entrance, patience):
    """A client that connects, asks, is answered and leaves."""
    with contextlib.closing(Client(place, patience)) as client:
        if entrance == "http":
            return fetch(client, "/healthz")
        return client.ask(b"join none 1\n" if entrance == "campaigns" else b"who none 1\n")


def answer_at(entrance):
    """What a visitor is answered."""
    return b"ok\n" if entrance == "http" else b"no no-group\n"


class Visits:
    """Clients that connect, ask, and leave."""

    def __init__(self, places, entrance):
        self.place, self.entrance = places[entrance], entrance

    def ask(self):
        """One client."""
        began = time.monotonic()
        same("the answer to a new client", visit(self.place, self.entrance, PATIENCE), answer_at(self.entrance))
        return began


class Strangers:
    """Clients that connect at the entrance that is flooded. One that is not answered in time leaves, and tries again."""

    def __init__(self, places, entrance):
        self.place, self.entrance, self.turned_away = places[entrance], entrance, 0

    def ask(self):
        """One client, until it is answered or leaves."""
        began = time.monotonic()
        try:
            told = visit(self.place, self.entrance, TRY)
        except (OSError, Differs):
            told = b""
        if not told:
            self.turned_away += 1
            return None
        same("the answer to a new client", told, answer_at(self.entrance))
        return began


class Other(threading.Thread):
    """A thread that has a client ask until it is stopped."""

    def __init__(self, name, client, pace, stop):
        super().__init__(name=name)
        self.client, self.pace, self.stop = client, pace, stop
        self.took, self.fault = [], None

    def run(self):
        try:
            while not self.stop.is_set():
                began = self.client.ask()
                if began is not None:
                    self.took.append(time.monotonic() - began)
                self.stop.wait(self.pace)
        except Exception as fault:  # (whatever it is: nobody else hears of it)
            self.fault = f"{type(fault).__name__}: {fault}"


class Others:
    """All clients that are measured while an entrance is flooded. Those that stay are connected before."""

    def __init__(self, places, flooded, group, seconds):
        self.stop = threading.Event()
        pace = max(CHANGE, seconds / TERMS)
        self.all = [Other("a session that stays", Asks(places, "kept"), PACE, self.stop),
                    Other("a member that campaigns", Campaigns(places, group), pace, self.stop),
                    Other("a long poll", Polls(places, group), 0, self.stop),
                    Other("a GET on a connection that stays", Gets(places, group), PACE, self.stop)]
        self.all += [Other(f"new clients of {it}", Visits(places, it), PACE, self.stop) for it in places if it != flooded]
        self.spare = Client(places["http"])
        self.strangers = Other(f"new clients of {flooded}", Strangers(places, flooded), PACE, self.stop)

    def __enter__(self):
        for it in [*self.all, self.strangers]:
            it.start()
        return self

    def forget(self):
        """Counts from now on."""
        for it in [*self.all, self.strangers]:
            it.took.clear()
        self.strangers.client.turned_away = 0

    def __exit__(self, kind, value, trace):
        self.stop.set()
        for it in [*self.all, self.strangers]:
            it.join()
        self.spare.close()
        for it in self.all:
            for one in ("client", "session"):
                if there := getattr(it.client, one, None):
                    there.close()
