"""What a check itself asks of the JSON gateway of etcd: keys that it puts, deletes and reads, and all that was ever put.

An event is a revision, a key, and the value that was put there, or None if it was deleted.
"""

import base64
import http.client
import json

from serving import Differs

PATIENCE = 10


def coded(text):
    """A text, or bytes, in base 64."""
    return base64.b64encode(text if isinstance(text, bytes) else text.encode()).decode()


def after_all(prefix):
    """The first key after all that begin so."""
    return prefix[:-1] + bytes([prefix[-1] + 1])


class Gateway:
    """The gateway of the members at these places, each HOST:PORT."""

    def __init__(self, places):
        self.places = places.split(",")

    def ask(self, path, body):
        """The answer of the first member that gives one."""
        for place in self.places:
            try:
                to = http.client.HTTPConnection(place, timeout=PATIENCE)
                to.request("POST", path, json.dumps(body))
                said = to.getresponse()
                if said.status == 200:
                    return json.loads(said.read())
            except (OSError, http.client.HTTPException):
                continue
        raise Differs(f"no member of etcd answers {path}")

    def put(self, key, value):
        """Puts a value at a key."""
        return self.ask("/v3/kv/put", {"key": coded(key), "value": coded(value)})

    def delete(self, key):
        """Deletes a key."""
        return self.ask("/v3/kv/deleterange", {"key": coded(key)})

    def keys(self, prefix):
        """The keys that begin so, in their order, with their values."""
        said = self.ask("/v3/kv/range", {"key": coded(prefix), "range_end": coded(after_all(prefix.encode()))})
        return {base64.b64decode(it["key"]).decode(): base64.b64decode(it.get("value", "")) for it in said.get("kvs", [])}

    def revision(self, key):
        """The revision of the last put at a key; None if nothing is there."""
        found = self.ask("/v3/kv/range", {"key": coded(key)}).get("kvs", [])
        return int(found[0]["mod_revision"]) if found else None

    def events(self, prefix):
        """All events of the keys that begin so, in their order. They were not compacted."""
        last = int(self.put(prefix + "end", "")["header"]["revision"])
        to = http.client.HTTPConnection(self.places[0], timeout=PATIENCE)
        watch = {"key": coded(prefix), "range_end": coded(after_all(prefix.encode())), "start_revision": "1"}
        to.request("POST", "/v3/watch", json.dumps({"create_request": watch}))
        answer, found = to.getresponse(), []
        while not found or found[-1][0] < last:
            said = json.loads(answer.readline() or b"{}").get("result", {"canceled": True})
            if said.get("canceled"):
                raise Differs(f"etcd ends the watch of the journal: {said}")
            found += [event_of(it) for it in said.get("events", [])]
        to.close()
        return found


def event_of(said):
    """An event, from the JSON of etcd."""
    kv = said["kv"]
    is_gone = said.get("type") == "DELETE"
    value = None if is_gone else base64.b64decode(kv.get("value", ""))
    return int(kv["mod_revision"]), base64.b64decode(kv["key"]).decode(), value
