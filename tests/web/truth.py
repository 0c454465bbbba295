"""What lines are told of groups, in the form of the JSON and the metrics of `ringd run --http`."""

import subprocess
import threading
import time

from identity import identity_of
from serving import HOST, PATIENCE, Client, Differs, same
from web.asking import Web
from web.metrics import of, of_groups

KINDS = ("chang", "peterson", "lelann", "hirschberg")
CHANGERS = 8
# A changer asks by HTTP once in so many changes. It starts a term once in so many, and stops before the limit of terms.
ASKS, STARTS, TERMS = 7, 100, 900


class Ringctl:
    """Asks by runs of ringctl."""

    def __init__(self, path, port):
        self.words = [path, "--address", f"unix:{port}" if isinstance(port, str) else f"{HOST}:{port}"]

    def ask(self, line):
        """The reply to a line, and nothing if it is refused."""
        ran = subprocess.run([*self.words, *line.decode().split()], capture_output=True, timeout=PATIENCE)
        if ran.returncode not in (0, 1):
            raise Differs(f"ringctl: status {ran.returncode}, {ran.stderr}")
        return ran.stdout


def node(word):
    """An identity as JSON."""
    member = identity_of(word)
    return {"number": member.number, "weight": member.weight}


def truth(client, group, kind):
    """What a client is told of a group, as JSON without its place. It is called in the same way of all groups."""
    members = [node(word) for word in client.ask(b"members %s\n" % group).decode().split()[1:]]
    leaders = [word.split(":")[1] for word in client.ask(b"terms %s\n" % group).decode().split()[1:]]
    terms = [{"term": number, "leader": None if word == "-" else node(word)} for number, word in enumerate(leaders, 1)]
    informed = [it["number"] for it in members
                if client.ask(b"who %s %d\n" % (group, it["number"])).startswith(b"leader ")]
    return {"group": group.decode(), "algorithm": kind, "members": members, "terms": terms, "informed": informed}


def samples_of(picture):
    """The samples that a group has by its JSON."""
    samples = {"ringd_members": len(picture["members"]), "ringd_term": len(picture["terms"]),
               "ringd_informed": len(picture["informed"])}
    if picture["terms"] and picture["terms"][-1]["leader"]:
        samples["ringd_leader"] = picture["terms"][-1]["leader"]["number"]
    return {of(name, "group", picture["group"]): value for name, value in samples.items()}


def compare(client, web, groups, others=()):
    """The JSON and the metrics of these groups say what a client is told. There may be these other groups too."""
    names = web.told("/v1/groups")["groups"]
    same("the groups", [name for name in names if name not in others], [it.decode() for it in groups])
    same("the groups of a line", client.ask(b"groups\n").decode().split()[1:], names)
    samples = web.samples()
    same("the number of groups", samples["ringd_groups"], len(names))
    wanted = {}
    for group, kind in groups.items():
        picture = web.told(f"/v1/groups/{group.decode()}")
        picture.pop("place")
        same("a group", picture, truth(client, group, kind))
        wanted.update(samples_of(picture))
    same("the metrics of groups", {name: value for name, value in of_groups(samples).items() if name in wanted
                                   or not any(f'"{it}"' in name for it in others)}, wanted)


class Changer(threading.Thread):
    """A client that alone changes a group, and so knows what HTTP has to say of it."""

    def __init__(self, number, port, web, stop):
        super().__init__()
        self.group, self.kind = b"load-%d" % number, KINDS[number % len(KINDS)]
        self.port, self.web, self.stop = port, web, stop
        self.members, self.terms, self.fault, self.changes = [5, 9], 0, None, 0

    def run(self):
        try:
            self.change_all(Client(self.port), Web(self.web))
        except Exception as fault:  # (whatever it is: nobody else hears of it)
            self.fault = fault

    def change_all(self, client, web):
        """Changes the group until it is stopped."""
        same("create", client.ask(b"create %s %s\n" % (self.group, self.kind.encode())), b"ok\n")
        for member in self.members:
            same("join", client.ask(b"join %s %d\n" % (self.group, member)), b"ok\n")
        while not self.stop.is_set():
            self.change(client)
            if self.changes % ASKS == 0:
                self.compare(web)
        client.close()
        web.close()

    def change(self, client):
        """One change: a member joins, or leaves, or a term starts."""
        self.changes += 1
        if self.changes % STARTS == 0 and self.terms < TERMS:
            self.terms += 1
            same("start", client.ask(b"start %s\n" % self.group), b"term %d\n" % self.terms)
        elif len(self.members) == 2:
            self.members.append(10 + self.changes)
            same("join", client.ask(b"join %s %d\n" % (self.group, self.members[-1])), b"ok\n")
        else:
            same("leave", client.ask(b"leave %s %d\n" % (self.group, self.members.pop())), b"ok\n")

    def compare(self, web):
        """Sees that the group has the members and the terms that it was given, and a rightful leader."""
        picture = web.told(f"/v1/groups/{self.group.decode()}")
        same("members under load", [it["number"] for it in picture["members"]], self.members)
        same("terms under load", [it["term"] for it in picture["terms"]], list(range(1, self.terms + 1)))
        same("algorithm under load", picture["algorithm"], self.kind)
        if not set(picture["informed"]) <= set(self.members):
            raise Differs(f"informed under load: {picture['informed']} of {self.members}")


class Load:
    """Clients that change other groups meanwhile. The first that was told something wrong says so at the end."""

    def __init__(self, port, web):
        self.stop = threading.Event()
        self.changers = [Changer(number, port, web, self.stop) for number in range(CHANGERS)]
        self.groups = {it.group: it.kind for it in self.changers}

    def __enter__(self):
        for it in self.changers:
            it.start()
        return self

    def __exit__(self, kind, value, trace):
        self.stop.set()
        for it in self.changers:
            it.join()
        for it in self.changers:
            if it.fault and not value:
                raise Differs(f"under load: {it.fault!r}")

    def await_groups(self, web):
        """Waits until the groups are there."""
        until = time.monotonic() + PATIENCE
        while lacking := {it.decode() for it in self.groups} - set(web.told("/v1/groups")["groups"]):
            if time.monotonic() > until:
                raise Differs(f"under load: without {sorted(lacking)}: {[it.fault for it in self.changers if it.fault]}")
            time.sleep(0.01)

    def changes(self):
        """How many changes were made so far."""
        return sum(it.changes for it in self.changers)
