"""A stand-in for the JSON gateway of etcd: one process with the keys in memory, which fails as it is told.

It knows what ring_etcd asks: /v3/kv/put, /v3/kv/range and /v3/kv/txn with the conditions CREATE, MOD and VALUE. Each
fault is drawn by a seed: the answer is lost after the request was carried out, or before; it is a 500, cut, other
JSON, no JSON, or comes too late; it is from another cluster, or from one without a leader; or some of its bytes are
changed. An answer that gives an identity keeps its bytes, since no program can tell a wrong one.
"""

import base64
import bisect
import http.server
import json
import random
import threading
import time

FAULTS = ("lost", "dropped", "500", "cut", "other", "text", "late", "foreign", "no leader", "changed")
# At most how many bytes of an answer are changed.
CHANGED = 8


class Keys:
    """The keys, each with its value, its create revision and its last revision."""

    def __init__(self):
        self.lock, self.revision, self.keys = threading.Lock(), 1, {}
        # the keys in their order, not in base 64: a page costs as much as its keys, however many there are
        self.order = []
        # each put and each deletion: the revision, the key, and the value or None
        self.events = []

    def put(self, op):
        old = self.keys.get(op["key"])
        if not old:
            bisect.insort(self.order, base64.b64decode(op["key"]))
        self.keys[op["key"]] = (op.get("value", ""), old[1] if old else self.revision, self.revision)
        self.note(op["key"], base64.b64decode(op.get("value", "")))
        return {"response_put": {}}

    def delete(self, op):
        gone = self.within(op)
        for key in gone:
            self.forget(key)
            self.note(key, None)
        return {"response_delete_range": {"deleted": str(len(gone))}}

    def forget(self, key):
        """Removes a key, if it is there, and notes nothing."""
        if self.keys.pop(key, None):
            del self.order[bisect.bisect_left(self.order, base64.b64decode(key))]

    def note(self, key, value):
        self.events.append((self.revision, base64.b64decode(key).decode(), value))

    def within(self, op):
        if "range_end" not in op:
            return [op["key"]] if op["key"] in self.keys else []
        first, end = (bisect.bisect_left(self.order, base64.b64decode(op[it])) for it in ("key", "range_end"))
        return [base64.b64encode(key).decode() for key in self.order[first:end]]

    def range(self, op):
        found = self.within(op)
        limit = int(op.get("limit", 0)) or len(found)
        kvs = []
        for key in found[:limit]:
            value, created, changed = self.keys[key]
            kv = {"key": key, "create_revision": str(created), "mod_revision": str(changed)}
            kvs.append({**kv, "value": value} if value else kv)
        said = {"kvs": kvs, "count": str(len(found))} if kvs else {}
        return {"response_range": {**said, "more": True} if len(found) > limit else said}

    def holds(self, compare):
        """Whether a condition holds: of each key in a range, or of one key, also if it is not there."""
        return all(self.holds_of(key, compare) for key in self.within(compare) or [compare["key"]])

    def holds_of(self, key, compare):
        value, created, changed = self.keys.get(key, (None, 0, 0))
        if compare["target"] == "CREATE":
            return created == int(compare["create_revision"])
        if compare["target"] == "MOD":
            return changed == int(compare["mod_revision"])
        return value == compare["value"]

    def carry_out(self, op):
        (kind, it), = op.items()
        return {"request_put": self.put, "request_range": self.range, "request_delete_range": self.delete}[kind](it)

    def ask(self, path, asked):
        with self.lock:
            if path == "/v3/kv/range":
                return {**self.header(), **self.range(asked)["response_range"]}
            if path == "/v3/kv/put":
                self.revision += 1
                self.put(asked)
                return self.header()
            holds = all(map(self.holds, asked["compare"]))
            ops = asked["success" if holds else "failure"]
            self.revision += any("request_range" not in op for op in ops)
            said = {**self.header(), "responses": [self.carry_out(op) for op in ops]}
            return {**said, "succeeded": True} if holds else said

    def header(self):
        return {"header": {"cluster_id": "1", "revision": str(self.revision)}}


class Handler(http.server.BaseHTTPRequestHandler):
    protocol_version = "HTTP/1.1"
    # an answer is one write, which waits for nothing
    wbufsize, disable_nagle_algorithm = -1, True

    def log_message(self, *_):
        pass

    def do_POST(self):
        body = self.rfile.read(int(self.headers["content-length"]))
        fault = self.server.draw()
        if fault == "dropped":
            self.close_connection = True
            return
        asked = json.loads(body)
        said = json.dumps(self.server.keys.ask(self.path, asked)).encode()
        is_identity = base64.b64decode(asked.get("key", "")).endswith(b"/ids")
        self.answer(None if fault == "changed" and is_identity else fault, said)

    def answer(self, fault, said):
        if fault == "late":
            time.sleep(self.server.late)
        if fault == "lost":
            self.close_connection = True
            return
        said = self.server.wrong(fault, said)
        self.send_response({"500": 500, "no leader": 503}.get(fault, 200))
        self.send_header("content-type", "application/json")
        self.send_header("content-length", str(len(said)))
        self.end_headers()
        try:
            self.wfile.write(said[: len(said) // 2] if fault == "cut" else said)
        except OSError:
            pass
        self.close_connection = self.close_connection or fault == "cut"


class Standin(http.server.ThreadingHTTPServer):
    """A stand-in at a port of its own. `rate` of its answers are faults, of these kinds."""

    daemon_threads = True

    def __init__(self, keys=None, rate=0.0, seed=0, faults=FAULTS, late=3.0):
        super().__init__(("127.0.0.1", 0), Handler)
        self.keys, self.rate, self.faults, self.late = keys or Keys(), rate, faults, late
        self.random, self.guard, self.told = random.Random(seed), threading.Lock(), {}
        threading.Thread(target=self.serve_forever, daemon=True).start()

    def wrong(self, fault, said):
        """What is answered in the place of the right answer."""
        if fault == "changed":
            said = bytearray(said)
            with self.guard:
                for _ in range(self.random.randint(1, CHANGED)):
                    said[self.random.randrange(len(said))] = self.random.randrange(256)
        if fault == "foreign":
            said = said.replace(b'"cluster_id": "1"', b'"cluster_id": "2"')
        instead = {"other": b'{"kvs": 7, "responses": [], "header": []}', "text": b"<html>what?</html>",
                   "no leader": b'{"error":"etcdserver: no leader","message":"etcdserver: no leader","code":14}'}
        return bytes(instead.get(fault, said))

    def draw(self):
        with self.guard:
            fault = self.random.choice(self.faults) if self.random.random() < self.rate else None
            self.told[fault] = self.told.get(fault, 0) + 1
            return fault

    def handle_error(self, request, client_address):
        """A connection that a killed program leaves is no error."""

    def place(self):
        return f"127.0.0.1:{self.server_address[1]}"
