"""Clients of HTTP, and a session that says what they have to be told.

Each answer is a whole response that says what the session is told before it and after it, at a place that is greater
than those before; or it is a 503, or the connection ends. How often it may fail is in failing.py.
"""

import json
import re
import time

from failing import Failing
from identity import identity_of
from server import PATIENCE, Lost
from sweep import Bad, ROOT

PAGE = ROOT / "crates/ring_http/page"
# The files whose texts each path has, one after another.
FILES = {
    "/": ("index.html",),
    "/app.js": tuple(f"script/{part}.js" for part in ("service", "words", "ring", "others", "views", "run")),
    "/app.css": ("app.css",),
}
POLICIES = b"\r\ncontent-security-policy: default-src 'self'\r\ncache-control: no-cache\r\n"
GROUP, PICTURE = "/v1/groups/a", "/v1/groups/a/election.svg"
# The texts of a 503. It has none if an allocation fails for it.
LACKING = b"no no-memory\n"
LACKS = (b"", LACKING, b"no answer\n")
# The paths that ask the table.
ASKING = ("/healthz", "/metrics", "/v1/groups", GROUP, PICTURE)
# How long a leader is waited for if a worker may have starved.
STARVED = 0.15
FIRST = re.compile(rb"HTTP/1\.1 ([1-5][0-9][0-9]) ")
LENGTH = re.compile(rb"\r\ncontent-length: ([0-9]+)\r\n")
SAMPLE = re.compile(r"^([a-z][^ ]*) ([0-9.]+)$", re.M)


def node(word):
    """An identity as JSON."""
    member = identity_of(word)
    return {"number": member.number, "weight": member.weight}


def samples_of(picture):
    """The samples that a group has by its JSON."""
    samples = {"members": len(picture["members"]), "term": len(picture["terms"]), "informed": len(picture["informed"])}
    if picture["terms"] and picture["terms"][-1]["leader"]:
        samples["leader"] = picture["terms"][-1]["leader"]["number"]
    return {f'ringd_{name}{{group="a"}}': value for name, value in samples.items()}


class Viewer:
    """A client of HTTP. It connects again after its connection has ended."""

    def __init__(self, crowd):
        self.crowd, self.client, self.path, self.place = crowd, None, None, -1

    def send(self, path):
        """Asks for a path."""
        self.client = self.client or self.crowd.connect(self.crowd.server.web)
        self.path = path
        try:
            self.client.socket.sendall(b"GET %s HTTP/1.1\r\nHost: localhost\r\n\r\n" % path.encode())
        except ConnectionError:
            pass

    def response(self):
        """The status and the body of the next response, and nothing else."""
        client = self.client
        while b"\r\n\r\n" not in client.told:
            if not client.more():
                raise Lost
        head, _, _ = client.told.partition(b"\r\n\r\n")
        first, length = FIRST.match(head), LENGTH.search(head + b"\r\n")
        if not first or not length or POLICIES not in head + b"\r\n":
            raise Bad(f"{self.path} is answered {head!r}")
        end = len(head) + 4 + int(length[1])
        while len(client.told) < end:
            if not client.more():
                raise Lost
        body, client.told = client.told[len(head) + 4:end], client.told[end:]
        return int(first[1]), body

    def take(self, wanted):
        """The body of the answer, which has this status. It asks again after a failure."""
        while True:
            try:
                status, body = self.response()
            except Lost:
                self.close()
                self.crowd.fail(f"a connection ended at {self.path}")
            else:
                if status == wanted:
                    self.crowd.lines += 1
                    return body
                if status != 503 or body not in LACKS:
                    raise Bad(f"{self.path} is answered {status}, {body!r}")
                self.crowd.fail(f"{self.path} is answered {status}, {body!r}")
            self.send(self.path)

    def get(self, path, wanted=200):
        """The body of a path."""
        self.send(path)
        return self.take(wanted)

    def picture(self, body):
        """The JSON of a group, or of all groups, without its place."""
        picture = json.loads(body)
        self.rise(picture.pop("place"))
        return picture

    def rise(self, place):
        """Notes a place."""
        if place <= self.place:
            raise Bad(f"{self.path} tells place {place} after {self.place}")
        self.place = place

    def close(self):
        """Ends the connection."""
        if self.client:
            self.client.socket.close()
        self.client = None


class Crowd(Failing):
    """Two clients of HTTP, one of which polls, and a session that changes a group."""

    def __init__(self, server, call, how, kind):
        super().__init__(server, call, how)
        self.kind, self.viewer, self.poller, self.pictures = kind, Viewer(self), Viewer(self), {}
        # what the viewer was told last, and the change after it that may have been made
        self.told, self.pending = None, None
        # an interrupted call ends a connection of HTTP as a failed one does
        self.may_fail |= how == "interrupt" and call in ("read", "write")
        self.counts_accepts, self.may_lack_file = (call, how) == ("accept", "fail"), call in ("read", "open")

    def facts(self):
        """What the session is told of the group, as JSON without a place."""
        members = [node(word.decode()) for word in self.ask(b"members a", rb"members.*").split()[1:]]
        leaders = [word.split(b":")[1].decode() for word in self.ask(b"terms a", rb"terms.*").split()[1:]]
        terms = [{"term": number, "leader": None if it == "-" else node(it)} for number, it in enumerate(leaders, 1)]
        informed = [it["number"] for it in members
                    if self.ask(b"who a %d" % it["number"], rb"leader .*|undecided .*|no no.*").startswith(b"leader ")]
        return {"group": "a", "algorithm": self.kind.decode(), "members": members, "terms": terms, "informed": informed}

    def same(self, path, one):
        """Sees that a path says what the session is told. Members may come to know a leader meanwhile."""
        until = time.monotonic() + PATIENCE
        while time.monotonic() < until:
            before, seen, facts = self.facts(), one(self.viewer.get(path)), self.facts()
            if before == facts:
                if not seen(facts):
                    raise Bad(f"{path} is not what the session is told: {facts}")
                return
        raise Bad("the group does not come to rest")

    def look(self):
        """Looks at all paths."""
        for path, names in FILES.items():
            if self.viewer.get(path) != b"".join((PAGE / name).read_bytes() for name in names):
                raise Bad(f"{path} is not its files")
        if self.viewer.get("/healthz") != b"ok\n":
            raise Bad("there is no health")
        if self.viewer.picture(self.viewer.get("/v1/groups")) != {"groups": ["a"]}:
            raise Bad("the groups are wrong")
        for path in ("/nothing", "/v1/groups/none", "/v1/groups/none/election.svg"):
            self.viewer.get(path, 404)
        self.same(GROUP, self.seen_group)
        self.same("/metrics", self.seen_samples)
        self.look_at_picture()

    def seen_group(self, body):
        """Whether the JSON of the group is what the session is told."""
        self.told, self.pending = self.viewer.picture(body), None
        return lambda facts: self.told == facts

    def seen_samples(self, body):
        """Whether the samples are what the session is told, and as many accepts failed as went wrong."""
        samples = dict(SAMPLE.findall(body.decode()))
        self.viewer.rise(int(samples["ringd_entries_total"]))
        failed = self.server.told() if self.counts_accepts else 0
        resident = float(samples.get("process_resident_memory_bytes", 0))
        may_lack = self.may_lack_file and self.server.told()
        if int(samples["ringd_failed_accepts_total"]) != failed or not (resident or may_lack):
            raise Bad(f"/metrics: {failed} accepts failed, and it says {samples}")
        return lambda facts: all(samples.get(name) == str(value)
                                 for name, value in {"ringd_groups": 1, **samples_of(facts)}.items())

    def look_at_picture(self):
        """There is a picture if a term was started, always the same one of a term."""
        terms = len(self.told["terms"])
        body = self.viewer.get(PICTURE, 200 if terms else 404)
        if terms and (self.pictures.setdefault(terms, body) != body or not body.rstrip().endswith(b"</svg>")):
            raise Bad(f"the picture of term {terms} is {body[-60:]!r}")

    def change(self, line, wanted):
        """A change, of which a client that polls is told."""
        poller = self.poller
        before = poller.picture(poller.get(GROUP))
        poller.send(f"{GROUP}?after={poller.place}&wait=60")
        self.pending = line
        reply = self.ask(line, wanted)
        if poller.picture(poller.take(200)) == before:
            raise Bad(f"a poll ends without news after {line!r}")
        return reply

    def settle(self):
        """Waits until each member knows the leader, or a worker may have starved."""
        began = time.monotonic()
        while any(self.ask(b"who a %d" % it["number"], rb"leader .*|undecided .*").startswith(b"undecided")
                  for it in self.facts()["members"]):
            waited = time.monotonic() - began
            if waited > STARVED and self.starves():
                return
            if waited > PATIENCE:
                raise Bad(f"nobody is known to lead, and {self.wrong()} calls went wrong")

    def view(self):
        """All that is done."""
        again = rb"|no exists|no member|no not-member"
        if self.ask(b"create a %s" % self.kind, rb"ok" + again) != b"ok" and not self.failed:
            raise Bad("a first group is refused")
        for name in (b"3", b"1/9", b"2"):
            self.ask(b"join a %s" % name, rb"ok" + again)
        self.look()
        self.change(b"start a", rb"term .*")
        self.settle()
        self.look()
        self.change(b"leave a 3", rb"ok" + again)
        self.look()
        self.viewer.close()
        self.poller.close()
        self.session.leave()

    def compare_restart(self):
        """Sees that a restart has what the viewer was told, and at most the one change after it."""
        self.session = None
        if not self.told:
            return
        told, has = self.told, self.facts()
        is_later = self.pending is not None
        terms = has["terms"][:len(told["terms"])]
        leads = all(it["leader"] in (None, other["leader"]) for it, other in zip(told["terms"], terms))
        lost = [it for it in told["members"] if it not in has["members"]]
        if (len(terms) != len(told["terms"]) or not leads or len(lost) > is_later
                or len(has["terms"]) - len(terms) > is_later):
            raise Bad(f"{told} was told, and a restart has {has}")
