"""A program: the crates that it is made of, the sum of what decides it, and the stamp that says so next to it.

A stamp is true of two files. It has the sum of all that decides the program, and the sum of the program that was proved
and built from that. So a program whose sources have changed, or in whose place is another, has no stamp that fits.
"""

import contextlib
import fcntl
import hashlib
import os
import pathlib
import sys

from crates import PARTS, TOP, listed

NAME, REPLAYS = "ringd", "ringd_replay"


def say(text):
    print(f"{NAME}: {text}", file=sys.stderr, flush=True)


class Crate:
    """A crate of the program, and how far its proof is."""

    def __init__(self, name, line, below):
        self.name, self.line, self.below = name, line, below
        self.folder = TOP / "crates" / name
        self.size = sum(file.read_bytes().count(b"\n") for file in files_of(self.folder, ("src", "proofs")))
        self.chain = self.size
        self.run, self.jobs, self.is_done = None, 0, False


def files_of(folder, parts=PARTS):
    """The files below a crate's folder that decide what is proved of it."""
    return sorted(pathlib.Path(at, name) for part in parts for at, _, names in os.walk(folder / part) for name in names)


def crate_of(name, lines, made):
    """The crate of this name, which joins those made after all that it uses."""
    if name not in made:
        line, names = lines[name]
        direct = [crate_of(it, lines, made) for it in names if it in lines]
        below = {it.name: it for lower in direct for it in [*lower.below, lower]}
        made[name] = Crate(name, line, list(below.values()))
    return made[name]


def planned(name):
    """All crates of a program, lowest first, each with the lines of the longest chain that begins with it: its own code
    and proofs, and those of the crates above that wait for it."""
    made = {}
    crate_of(name, listed(), made)
    crates = list(made.values())
    for crate in reversed(crates):
        crate.chain = crate.size + max((it.chain for it in crates if crate in it.below), default=0)
    return crates


def sums_of(crates, root):
    """A sum for each crate of all that decides what is proved of it, by the files below a folder: its line, its sources,
    definitions and proofs, and those of the crates below it."""
    found = {}
    for crate in crates:
        total = hashlib.sha256(f"{crate.line}\n".encode())
        for it in crate.below:
            total.update(f"{found[it.name]}\n".encode())
        for file in files_of(root / crate.name):
            total.update(f"{file.relative_to(root)}\n".encode())
            total.update(hashlib.sha256(file.read_bytes()).digest())
        found[crate.name] = total.hexdigest()
    return found


class Program:
    """A program with all crates that it uses."""

    def __init__(self, name):
        self.name, self.crates = name, planned(name)
        self.out = TOP / "crates" / name / "out"
        self.path = self.out / name
        self.stamp = self.out / f"{name}.sources"

    def decided(self):
        """The sum of all that decides the program now."""
        return sums_of(self.crates, TOP / "crates")[self.name]

    def stamp_of(self, decided):
        """The stamp of the program that is there, if this sum decided it."""
        return f"{decided} {hashlib.sha256(self.path.read_bytes()).hexdigest()}\n"

    def is_there(self):
        return os.access(self.path, os.X_OK)

    def is_built(self):
        """Whether the program that is there was built from the present files."""
        if not self.is_there() or not self.stamp.is_file():
            return False
        return self.stamp.read_text(encoding="utf-8") == self.stamp_of(self.decided())

    def write_stamp(self, decided):
        self.stamp.write_text(self.stamp_of(decided), encoding="utf-8")

    def note(self):
        """What has to be the same before and after a proof: the sum of all that decides the program, and which files those
        are and when each was last changed. A file that was changed, proved and changed back has another time."""
        places = [TOP / "crates.txt"]
        for crate in self.crates:
            places += [pathlib.Path(at) for part in PARTS for at, _, _ in os.walk(crate.folder / part)]
            places += files_of(crate.folder)
        times = [(str(it), stat.st_ino, stat.st_mtime_ns, stat.st_ctime_ns) for it in places for stat in [it.stat()]]
        return f"{self.name} {self.decided()} {hashlib.sha256(repr(times).encode()).hexdigest()}\n"


@contextlib.contextmanager
def locked(program, is_waiting=True):
    """Keeps other builds out, and runs of rt out of the program's folder. If one is at work it waits for it, or fails."""
    held = [os.open(it, os.O_RDONLY) for it in (TOP / "crates", TOP / "crates" / program.name)]
    try:
        for it in held:
            try:
                fcntl.flock(it, fcntl.LOCK_EX | fcntl.LOCK_NB)
            except BlockingIOError:
                if not is_waiting:
                    raise
                say("waiting for another run of rt, or of this build")
                fcntl.flock(it, fcntl.LOCK_EX)
        yield
    finally:
        for it in held:
            os.close(it)


def note(file):
    """Notes in a file what decides the programs, before `rt ci` builds them."""
    pathlib.Path(file).write_text("".join(Program(it).note() for it in (NAME, REPLAYS)), encoding="utf-8")


def stamp_noted(file):
    """Writes the stamps of the programs that `rt ci` built, once all of CI passed: of each that is there, if nothing that
    decides it was touched since the note. Another build that is at work writes its own stamp."""
    noted = pathlib.Path(file).read_text(encoding="utf-8").splitlines(keepends=True)
    for program in (Program(NAME), Program(REPLAYS)):
        line = program.note()
        if line not in noted or not program.is_there():
            say(f"{program.name} will be proved again: it is not there, or its files were touched since CI began")
            continue
        with contextlib.suppress(BlockingIOError), locked(program, is_waiting=False):
            program.write_stamp(line.split()[1])
            say(f"{program.name} is proved and built: no command proves it again as its files are")
