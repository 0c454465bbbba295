"""A recording of a life, as tests/sweeps/record.c writes it, and the files that a crash at one of its moments may leave.

A crash leaves of each file what was synced. Of each byte that was written since, it leaves the old or the new one; a
file that grew has zeros in place of bytes that were not written, or ends early. Of the names that were made, moved and
removed since the last sync of the folder, it leaves the first few as they are now. So a write is there in part, and a
rename is there or not.
"""

import pathlib
import subprocess
from typing import NamedTuple

from serving import Differs

SWEEPS = pathlib.Path(__file__).resolve().parents[1] / "sweeps"
SECTOR = 512
FOLDER = "."


def build_recorder(folder):
    """Builds the library that records, in this folder. The answer is its path. Fails if there is no C compiler."""
    found = subprocess.run([SWEEPS / "compiler"], stdout=subprocess.PIPE, stderr=subprocess.DEVNULL, check=False)
    if found.returncode:
        raise Differs("there is no C compiler: no crash images are made")
    compiler = found.stdout.decode().rstrip("\n").rpartition("\n")[2]
    library = pathlib.Path(folder) / "record.so"
    subprocess.run([compiler, "-shared", "-fPIC", "-O2", "-o", library, SWEEPS / "record.c"], check=True)
    return library


class Event(NamedTuple):
    """The begin or the end of a call. `done` is at a begin: the result, None if the call never ended."""

    kind: str
    thread: int
    key: int
    offset: int
    data: bytes
    done: object = None


def read_recording(path):
    """Returns the events of a recording in order. A record that a kill cut is left out."""
    text, at, events, open_calls = path.read_bytes(), 0, [], {}
    while (end := text.find(b"\n", at)) >= 0:
        kind, thread, key, offset, result, length = text[at:end].decode().split(" ")
        at = end + 1 + int(length)
        if at > len(text):
            break
        event = Event(kind, int(thread), int(key), int(offset), text[end + 1:at])
        if kind.isupper():
            open_calls[event.thread] = len(events)
        elif kind != "o":
            begun = open_calls.pop(event.thread)
            events[begun] = events[begun]._replace(done=int(result))
        events.append(event._replace(done=int(result)) if kind.islower() else event)
    return events


class File:
    """A file: the bytes that are on the disk for good, and the writes since then in order."""

    def __init__(self, synced=b""):
        self.synced, self.pending = bytearray(synced), []

    def settle(self, writes):
        """Puts writes on the disk for good."""
        for write in writes:
            put(self.synced, write.offset, write.data)
        self.pending = [it for it in self.pending if not any(it is write for write in writes)]

    def now(self):
        """Returns the bytes that the program itself would read."""
        content = bytearray(self.synced)
        for write in self.pending:
            put(content, write.offset, write.data)
        return bytes(content)


def put(content, offset, data):
    """Writes bytes at a place, with zeros before them if the content ends earlier."""
    if len(content) < offset:
        content.extend(bytes(offset - len(content)))
    content[offset:offset + len(data)] = data


class Write:
    """Bytes that a call writes at a place, and whether the call has ended."""

    def __init__(self, offset, data):
        self.offset, self.data, self.is_done = offset, data, False


class Disk:
    """The folder of a journal: its files, and which calls on it a crash may undo."""

    def __init__(self, files):
        self.kept = {name: File(data) for name, data in files.items()}
        self.names, self.moves, self.by_inode = dict(self.kept), [], {}
        # of each file that another one took the place of, its name and its bytes then
        self.replaced = []
        # what each thread is at: a write, or the writes and moves that its sync will have kept
        self.calls = {}

    def apply(self, event):
        """Notes one event."""
        getattr(self, f"on_{event.kind}", lambda _: None)(event)

    def on_o(self, event):
        name = event.data.decode()
        if name not in self.names:
            self.move({**self.names, name: File()})
        self.by_inode[event.key] = self.names[name]

    def on_W(self, event):
        moved = event.data if event.done is None or event.done < 0 else event.data[:event.done]
        write = Write(event.offset, moved)
        self.by_inode[event.key].pending.append(write)
        self.calls[event.thread] = write

    def on_w(self, event):
        self.calls.pop(event.thread).is_done = True

    def on_S(self, event):
        file = self.by_inode.get(event.key)
        if file:
            self.calls[event.thread] = file, [write for write in file.pending if write.is_done]
        else:
            self.calls[event.thread] = FOLDER, len(self.moves)

    def on_s(self, event):
        what, kept = self.calls.pop(event.thread)
        if event.done:
            return
        if what is not FOLDER:
            what.settle(kept)
        elif kept:
            self.kept = self.moves[kept - 1]
            self.moves = self.moves[kept:]

    def on_C(self, event):
        if len(self.by_inode[event.key].now()) > event.offset:
            raise Differs(f"a file of the journal is cut to {event.offset} bytes")

    def on_R(self, event):
        source, target = event.data.decode().split("\0")
        if event.done == 0:
            rest = {name: file for name, file in self.names.items() if name != source}
            if target in rest:
                self.replaced.append((target, rest[target].now()))
            self.move({**rest, target: self.names[source]})

    def on_U(self, event):
        if event.done == 0:
            self.move({name: file for name, file in self.names.items() if name != event.data.decode()})

    def move(self, names):
        """Notes that the folder has these names now."""
        self.names = names
        self.moves.append(names)

    def now(self):
        """Returns the files as the program itself would read them."""
        return {name: file.now() for name, file in self.names.items()}

    def is_unsure(self):
        """Returns whether a crash may leave other files than `now`."""
        return bool(self.moves) or any(file.pending for file in self.names.values())

    def is_growing(self):
        """Returns whether a write of zeros is not on the disk for good."""
        return any(not write.data.strip(b"\0") for file in self.names.values() for write in file.pending)

    def draw(self, dice):
        """Returns files that a crash at this moment may leave, drawn by chance."""
        names = dice.choice([self.kept, *self.moves[-3:]])
        return {name: drawn(file, dice) for name, file in names.items()}


def drawn(file, dice):
    """Returns the bytes of a file that a crash may leave."""
    content = bytearray(file.synced)
    end = len(content.rstrip(b"\0"))
    pieces = [(write.offset, text_of(write, end)) for write in file.pending]
    for offset, part in dice.choice(PATTERNS)(pieces, dice):
        put(content, offset, part)
    longest = max([len(content), *(write.offset + len(write.data) for write in file.pending)])
    content.extend(bytes(dice.choice([0, longest - len(content), dice.randint(0, longest - len(content))])))
    return bytes(content)


def text_of(write, end):
    """Returns the bytes of a write without its last zeros, as far as these are after `end` and change nothing."""
    return write.data[:max(len(write.data.rstrip(b"\0")), end - write.offset, 0)]


def no_part(pieces, dice):
    """Nothing was written."""
    return []


def each_part(pieces, dice):
    """All was written."""
    return pieces


def first_part(pieces, dice):
    """The writes were torn at one byte, and nothing after it was written."""
    left = dice.randint(0, sum(len(data) for _, data in pieces))
    for offset, data in pieces:
        yield offset, data[:left]
        left = max(left - len(data), 0)


def last_part(pieces, dice):
    """Nothing before one byte was written."""
    left = dice.randint(0, sum(len(data) for _, data in pieces))
    for offset, data in pieces:
        at = min(left, len(data))
        yield offset + at, data[at:]
        left -= at


def some_writes(pieces, dice):
    """Some of the writes were made."""
    return [piece for piece in pieces if dice.random() < 0.5]


def some_sectors(pieces, dice):
    """Some sectors of the disk were written, and the others are old."""
    for offset, data in pieces:
        at = 0
        while at < len(data):
            size = SECTOR - (offset + at) % SECTOR
            if dice.random() < 0.5:
                yield offset + at, data[at:at + size]
            at += size


def some_bytes(pieces, dice):
    """Each byte is old or new by chance."""
    chance = dice.choice([0.02, 0.5, 0.98])
    for offset, data in pieces:
        for at in range(len(data)):
            if dice.random() < chance:
                yield offset + at, data[at:at + 1]


def all_but_a_piece(pieces, dice):
    """All was written except some bytes in a row."""
    total = sum(len(data) for _, data in pieces)
    begin = dice.randint(0, total)
    end = begin + dice.choice([1, 2, 11, dice.randint(0, total)])
    for offset, data in pieces:
        yield offset, data[:max(begin, 0)]
        after = min(max(end, 0), len(data))
        yield offset + after, data[after:]
        begin, end = begin - len(data), end - len(data)


PATTERNS = [no_part, each_part, first_part, first_part, last_part, some_writes, some_sectors, some_bytes,
            all_but_a_piece, all_but_a_piece]
