"""Checks of `ringd` over a stand-in for etcd whose pages are not those of a quiet journal.

In one the text is replaced while it is read, as by a process that shortens its journal. In the other the pairs of a page
are in another order than that of their keys.
"""

from checking import listed
from etcd.gateway import coded
from etcd_standin import Keys, Standin
from journals.changes import text_of_changes
from journals.lives import listing
from serving import Differs, same, short

NAME = "looked-at"
# How many entries the old text has: some pages. And how often a text is replaced until the program gives up.
ENTRIES, READINGS = 300, 64
UNREADABLE, TAKEN_OVER = b"ringd: journal unreadable\n", b"ringd: journal taken over\n"
CHECKS, check = listed()


def changes_of(group, count):
    """The changes of a group: members join and leave."""
    changes = [b"create %s chang" % group]
    for member in range(1, count + 1):
        changes += [b"join %s %d" % (group, member), b"leave %s %d" % (group, member)]
    return changes


class Replaced(Keys):
    """Keys of a journal whose text is replaced before the n-th page of it is read, and before each later one if `always`."""

    def __init__(self, at, always=False):
        super().__init__()
        self.left, self.always, self.text = at, always, 0
        self.begin(b"old", ENTRIES)

    def ask(self, path, asked):
        if path == "/v3/kv/range" and "range_end" in asked:
            self.left -= 1
            if self.left == 0 or self.left < 0 and self.always:
                self.replace()
        return super().ask(path, asked)

    def put_at(self, name, value):
        """Puts a value at a key of the journal."""
        super().ask("/v3/kv/put", {"key": coded(f"ring/{NAME}/{name}"), "value": coded(value)})

    def begin(self, group, count):
        """Puts a text of one piece, with an entry for each change after it, and makes it count."""
        self.text += 1
        lines, top = text_of_changes(changes_of(group, count)).splitlines(True), f"t/{self.text:020}"
        self.put_at(f"{top}/p/{0:020}", b"".join(lines[:2]))
        for number, line in enumerate(lines[2:], 1):
            self.put_at(f"{top}/e/{number:020}", b"b" + line)
        self.put_at("base", b"ringd 1 %d 1" % self.text)

    def replace(self):
        """Another text counts, and the one before is deleted."""
        self.begin(b"new", 3)
        with self.lock:
            self.delete({"key": coded(f"ring/{NAME}/t/"), "range_end": coded(f"ring/{NAME}/t/{self.text:020}/")})


class Reversed(Replaced):
    """Keys whose pages have their pairs in the reverse order."""

    def range(self, op):
        said = super().range(op)
        said["response_range"].get("kvs", []).reverse()
        return said


def looked(program, keys):
    """What `ringd journal` says of the journal in these keys: its status, and what it wrote."""
    standin = Standin(keys)
    try:
        ran = listing(program, f"etcd://{standin.place()}/{NAME}")
        return ran.returncode, ran.stdout, ran.stderr
    finally:
        standin.shutdown()
        standin.server_close()


@check
def a_replaced_text_is_read_anew(program):
    """`ringd journal` prints the old text or the new one, each whole, whenever the text is replaced. If it is replaced
    in each reading, it gives up."""
    old = Replaced(0)
    wanted = {"old": looked(program, old)}
    old.replace()
    wanted["new"] = looked(program, old)
    if wanted["old"] == wanted["new"] or any(it[0] or it[2] for it in wanted.values()):
        raise Differs(f"the two texts are listed as {short(wanted)}")
    count = 0
    for at in range(1, 100):
        keys = Replaced(at)
        found = looked(program, keys)
        is_over = keys.left > 0
        same(f"the journal, replaced before page {at}", found, wanted["old" if is_over else "new"])
        if is_over:
            break
        count += 1
    if count < 4:
        raise Differs(f"only {count} pages were read")
    keys = Replaced(1, always=True)
    same("the journal, replaced in each reading", looked(program, keys), (1, b"", TAKEN_OVER))
    same("the replacements", keys.text - 1 >= READINGS, True)
    return f"replaced before each of {count} pages"


@check
def pages_in_another_order_are_refused(program):
    """Pages are asked for without a sort. If their pairs are in another order, the journal is refused."""
    same("the journal", looked(program, Reversed(0)), (1, b"", UNREADABLE))
