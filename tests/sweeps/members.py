"""The stand-in for etcd under the sweeps. All runs share it, and each has a journal of its own there."""

import base64
import itertools
import re

from etcd.gateway import coded
from etcd.log import texts_of
from etcd_standin import Keys, Standin
from journals.changes import history_of, text_of_changes
from ports import HOST
from serving import Differs
from sweep import Bad

# How often the stand-in is named in a journal's place. A request is sent again that often without a pause.
NAMED = 6
# The number of the text that a journal has at first, which no process puts, and how many bytes each of its pieces has.
TEXT, PIECE = 7, 120
NUMBERS = itertools.count(1)


class Members(Standin):
    """A stand-in with many journals, whose keys have nothing in common."""

    # Connections that wait for an accept. With fewer, a connect may be sent again only after a second.
    request_queue_size = 128

    def __init__(self):
        self.journals = {}
        super().__init__(self)

    def close(self):
        """Ends the stand-in."""
        self.shutdown()
        self.server_close()

    def ask(self, path, asked):
        """Carries out a request by the keys of its journal."""
        key = asked["key"] if "key" in asked else asked["compare"][0]["key"]
        return self.journals[base64.b64decode(key).split(b"/")[1].decode()].ask(path, asked)


class Journal(Keys):
    """The keys of one journal. If it has changes at first, half of them are in a text of some pieces, and the others in
    entries of two lines. It may have a lease too, as if its process had just been killed."""

    def __init__(self, members, changes=(), has_lease=False):
        super().__init__()
        self.members, self.name = members, f"j{next(NUMBERS)}"
        self.top = f"ring/{self.name}/"
        members.journals[self.name] = self
        for _ in range(TEXT + 1):
            self.put_at("ids", b"")
        if changes:
            self.begin(text_of_changes(changes).splitlines(True))
        if has_lease:
            self.put_at("lease", b"1")
        self.first = list(self.events)

    def begin(self, lines):
        """Puts a text of half of the lines, and the others as entries."""
        half = len(lines) // 2
        text = b"".join(lines[:half])
        pieces = [text[at:at + PIECE] for at in range(0, len(text), PIECE)]
        for number, piece in enumerate(pieces):
            self.put_at(f"t/{TEXT:020}/p/{number:020}", piece)
        self.put_at("base", b"ringd 1 %d %d" % (TEXT, len(pieces)))
        for number, at in enumerate(range(half, len(lines), 2), 1):
            self.put_at(f"t/{TEXT:020}/e/{number:020}", b"b" + b"".join(lines[at:at + 2]))

    def put_at(self, key, value):
        """Puts a value at a key of this journal."""
        self.ask("/v3/kv/put", {"key": coded(self.top + key), "value": coded(value)})

    def place(self, host=HOST):
        """The journal's place, as the program is given it."""
        members = ",".join([f"{host}:{self.members.server_address[1]}"] * NAMED)
        return f"etcd://{members}/{self.name}"

    def end_lease(self):
        """Lets the next process begin at once."""
        with self.lock:
            self.forget(coded(self.top + "lease"))

    def supersede(self):
        """Takes the journal over, as another process does: by the lease, and an entry under the next number."""
        with self.lock:
            text = texts_of(self.name, self.events)[-1]
            for key in ("lease", f"t/{text.number:020}/e/{len(text.entries) + 1:020}"):
                self.revision += 1
                self.put({"key": coded(self.top + key), "value": coded(b"t1")})

    def changed(self):
        """Which keys were put or deleted by a program, without their numbers."""
        return {re.sub("[0-9]+", "N", key.removeprefix(self.top)) for _, key, _ in self.events[len(self.first):]}

    def groups(self):
        """The groups that the journal has now. Each text that counted, and each entry, must be whole."""
        try:
            histories = [history_of(whole(text)) for text in texts_of(self.name, list(self.events))]
        except Differs as differs:
            raise Bad(f"in etcd: {differs}") from None
        return dict(histories[-1].last_groups()) if histories else {}

    def close(self):
        """Forgets the journal."""
        del self.members.journals[self.name]


def whole(text):
    """The bytes of a text and of its entries. Each entry has whole lines."""
    if torn := [entry for entry in text.entries if entry[-1:] not in (b"", b"\n")]:
        raise Differs(f"an entry has a part of a line: {torn[0][-60:]!r}")
    return text.whole()
