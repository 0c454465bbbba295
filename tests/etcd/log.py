"""The journal as etcd had it at each moment, from all events of its keys.

A `Text` is what one base named: the bytes of its pieces, and the entries that were put after them.
"""

import re

from serving import Differs

BASE = re.compile(rb"ringd 1 ([0-9]+) ([0-9]+)")
# The first byte of an entry with bytes of the journal, and of one by which a process takes over.
BATCH, TAKES = b"b", b"t"


class Text:
    """A text that counted, and its entries."""

    def __init__(self, number, begun):
        self.number, self.begun, self.entries, self.takes = number, begun, [], []

    def whole(self):
        """The bytes of the journal as long as this text counted."""
        return self.begun + b"".join(self.entries)


def texts_of(name, events):
    """The texts that counted, one after another. Sees that each entry was put once, under the next number, and while its
    text counted."""
    top, keys, texts = f"ring/{name}/", {}, []
    for revision, key, value in events:
        if key == top + "base":
            texts.append(named_by(top, keys, value))
        elif "/e/" in key and value is not None:
            add_entry(texts, top, key, value, revision)
        if value is None:
            keys.pop(key, None)
        else:
            keys[key] = value
    return texts


def named_by(top, keys, value):
    """The text that a base names, by the pieces that are there."""
    found = BASE.fullmatch(value or b"")
    if not found:
        raise Differs(f"the base became {value!r}")
    number, pieces = map(int, found.groups())
    there = [keys.get(f"{top}t/{number:020}/p/{place:020}") for place in range(pieces)]
    if None in there:
        raise Differs(f"the base names text {number}, of which piece {there.index(None)} is not there")
    return Text(number, b"".join(there))


def add_entry(texts, top, key, value, revision):
    """Adds an entry to the text that counts, which must be its own, under the next number."""
    last = texts[-1]
    wanted = f"{top}t/{last.number:020}/e/{len(last.entries) + 1:020}"
    if key != wanted:
        raise Differs(f"at revision {revision} an entry was put at {key}, and not at {wanted}")
    last.entries.append(value[1:] if value[:1] == BATCH else b"")
    if value[:1] == TAKES:
        last.takes.append(value[1:])


def whole_text(name, keys):
    """The bytes of the journal that is in these keys now."""
    top = f"ring/{name}/"
    text = named_by(top, keys, keys.get(top + "base"))
    for number in range(1, len(keys)):
        value = keys.get(f"{top}t/{text.number:020}/e/{number:020}")
        if value is None:
            break
        text.entries.append(value[1:] if value[:1] == BATCH else b"")
    return text.whole()
