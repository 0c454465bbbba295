"""A client of the place of `ringd run --http`."""

import http.client
import json
import time

from serving import HOST, PATIENCE, Differs, connected, same
from web.metrics import samples_in

# The fields that each response has, whatever was asked.
POLICIES = {"content-security-policy": "default-src 'self'", "cache-control": "no-cache"}
JSON, METRICS = "application/json", "text/plain; version=0.0.4; charset=utf-8"
# After how many seconds without a request a client connects anew, since the program lets silent clients go.
FRESH = 1


class Link(http.client.HTTPConnection):
    """A connection of HTTP to a port or to the path of a socket. A socket has no name, and its host is localhost."""

    def __init__(self, there):
        host = ("localhost",) if isinstance(there, str) else (HOST, there)
        super().__init__(*host, timeout=PATIENCE)
        self.there = there

    def connect(self):
        """Connects, also anew after the program has ended the connection."""
        self.sock = connected(self.there)


class Web:
    """A connection for one request after another. Each place that it is told is greater than the one before."""

    def __init__(self, there):
        self.link, self.last = Link(there), time.monotonic()
        self.place = -1

    def get(self, path, method="GET", host=None):
        """A response: its status, its fields and its body."""
        if time.monotonic() - self.last > FRESH:
            self.link.close()
        self.link.request(method, path, headers={"Host": host} if host else {})
        response = self.link.getresponse()
        body, self.last = response.read(), time.monotonic()
        for name, value in POLICIES.items():
            same(f"{name} of {method} {path}", response.getheader(name), value)
        same(f"the cookies of {path}", response.getheader("set-cookie"), None)
        return response.status, response, body

    def body(self, path, kind):
        """The body of a response that has to be good, and of this type."""
        status, response, body = self.get(path)
        same(f"the status and type of {path}", (status, response.getheader("content-type")), (200, kind))
        return body

    def told(self, path):
        """The JSON of a path, with its place."""
        value = json.loads(self.body(path, JSON))
        self.rise(value["place"], path)
        return value

    def samples(self):
        """The samples of the metrics."""
        samples = samples_in(self.body("/metrics", METRICS).decode())
        self.rise(samples["ringd_entries_total"], "/metrics")
        return samples

    def rise(self, place, path):
        """Notes a place that this connection was told."""
        if place <= self.place:
            raise Differs(f"{path} tells place {place} after {self.place}")
        self.place = place

    def close(self):
        """Ends the connection."""
        self.link.close()
