"""A room in which `ring-lead` is run, and what its commands wrote there."""

import contextlib
import os
import pathlib
import re
import shutil
import subprocess
import sys
import time
from typing import NamedTuple

from checking import Program
from serving import HOST, PATIENCE, Client, Differs, ended, free_port, same, short, text_of

TOP = pathlib.Path(__file__).resolve().parents[1]
GRACE = 2
# What is run while a member leads: WORK FOLDER PLACE WAY.
WORK = """
import fcntl, os, signal, subprocess, sys, time
folder, place, way = sys.argv[1:]
log = os.open(f"{folder}/log", os.O_WRONLY | os.O_APPEND | os.O_CREAT)
def tell(word):
    os.write(log, f"{word} {place} {os.environ['RING_MEMBER']} {os.environ['RING_TERM']} {os.getpid()}\\n".encode())
def stop(*_):
    if way == "slow":
        time.sleep(0.8)
    tell("end")
    os._exit(0)
signal.signal(signal.SIGTERM, signal.SIG_IGN if way == "ignore" else stop)
lock = open(f"{folder}/{place}.lock", "w")
try:
    fcntl.flock(lock, fcntl.LOCK_EX | fcntl.LOCK_NB)
except OSError:
    tell("twice")
tell("begin")
if way == "leave":
    left = "import signal, time; signal.signal(15, signal.SIG_IGN); time.sleep(100)"
    subprocess.Popen([sys.executable, "-c", left, folder])
    tell("end")
else:
    time.sleep(100)
"""
# What is found in place of setsid. It counts the starts of a campaign, of a command and of their keepers, and holds the
# start whose number the file `hold` has, for as long as this file is there.
SETSID = """#!/bin/sh
case "$*" in *--address*|*/work.py*)
    echo >> starts
    starts=$(wc -l < starts)
    while [ "$(cat hold 2> /dev/null)" = "$starts" ]; do sleep 0.01; done ;;
esac
exec {setsid} "$@"
"""


class Entry(NamedTuple):
    """A line of the log."""
    word: str
    place: str
    member: int
    term: int
    pid: int


class Room(Program):
    """ring-lead, the programs that it needs, and a folder with what its commands wrote."""

    def __init__(self, ringctl, service, folder):
        super().__init__(TOP / "clients/ring-lead", folder)
        self.service, self.ports = os.path.abspath(service), (free_port(), free_port())
        self.address = f"{HOST}:{self.ports[1]}"
        self.env = dict(os.environ, RINGCTL=os.path.abspath(ringctl))
        (self.folder / "ring.toml").write_bytes(text_of(self.ports[0]))
        (self.folder / "work.py").write_text(WORK, encoding="utf-8")

    @contextlib.contextmanager
    def serving(self):
        """A service with group a, whose campaigns may be silent for two seconds."""
        command = [self.service, "run", "ring.toml", "--campaign", str(self.ports[1]), "--idle", "2"]
        with ended(subprocess.Popen([*command, "--sessions", "32"], cwd=self.folder, stdout=subprocess.PIPE,
                                    stderr=subprocess.PIPE)) as run:
            same("the first line", run.stdout.readline(), b"listening 127.0.0.1:%d\n" % self.ports[0])
            same("a new group", self.ask("create a chang"), "ok")
            yield run

    def ask(self, line):
        """The reply to a line of a session."""
        with contextlib.closing(Client(self.ports[0])) as client:
            return client.ask(f"{line}\n".encode()).decode().strip()

    def command(self, member, *command, grace=GRACE, address=None):
        """The words that run a command."""
        return [self.path, "-a", address or self.address, "-g", str(grace), "a", str(member), "--", *command]

    def work(self, member, way="obey", grace=GRACE):
        """The words that run the command above, in a place of the member's own."""
        place = f"place-{str(member).split('/')[0]}"
        work = [sys.executable, self.folder / "work.py", self.folder, place, way]
        return self.command(member, *map(str, work), grace=grace)

    def start(self, words):
        """Starts ring-lead with these words."""
        return subprocess.Popen(words, env=self.env, cwd=self.folder, stdin=subprocess.DEVNULL,
                                stdout=subprocess.PIPE, stderr=subprocess.PIPE, start_new_session=True)

    @contextlib.contextmanager
    def held(self, number):
        """A run of the command above, held when it makes its start with this number, and what lets it go on."""
        (self.folder / "bin").mkdir(exist_ok=True)
        path = self.folder / "bin/setsid"
        path.write_text(SETSID.format(setsid=shutil.which("setsid")), encoding="utf-8")
        path.chmod(0o755)
        hold, starts = self.folder / "hold", self.folder / "starts"
        hold.write_text(str(number), encoding="ascii")
        starts.write_bytes(b"")
        self.env["PATH"] = f"{path.parent}:{os.environ['PATH']}"
        with ended(self.start(self.work(3))) as run:
            await_true(f"start {number}", lambda: len(starts.read_bytes()) == number)
            # A shell that has not begun to read takes a signal only after its next line.
            await_true("ring-lead waits", lambda: state_of(run.pid) == "S")
            yield run, hold.unlink

    def log(self):
        """What the commands have written so far."""
        path = self.folder / "log"
        lines = path.read_text(encoding="ascii").splitlines() if path.exists() else []
        return [Entry(word, place, int(member), int(term), int(pid))
                for word, place, member, term, pid in map(str.split, lines)]

    def told(self, *words):
        """The entries of the log with one of these words."""
        return [entry for entry in self.log() if entry.word in words]

    def begun(self, count):
        """Waits until commands have begun so many times. The last of these entries."""
        await_true(f"{count} begins", lambda: len(self.told("begin")) >= count)
        return self.told("begin")[count - 1]

    def running(self, service=None):
        """What runs on behalf of this check, by its number, but the service."""
        found = {}
        for path in pathlib.Path("/proc").glob("[0-9]*/cmdline"):
            with contextlib.suppress(OSError):
                text = path.read_bytes().replace(b"\0", b" ").decode("utf-8", "replace")
                if str(self.folder) in text or self.address in text:
                    found[int(path.parent.name)] = text
        found.pop(service.pid if service else None, None)
        return found

    def campaign(self, service, member):
        """The number of the ringctl that campaigns for a member."""
        (number,) = [pid for pid, text in self.running(service).items()
                     if "--address" in text and text.endswith(f" a {member} ") and not text.startswith("sh ")]
        return number

    def is_quiet(self, service=None):
        """Waits until nothing is left."""
        await_true("nothing is left", lambda: not self.running(service), lambda: short(self.running(service)))


def await_true(what, look, seen=lambda: ""):
    """Waits until this is so."""
    until = time.monotonic() + PATIENCE
    while not look():
        if time.monotonic() > until:
            raise Differs(f"{what}: not after {PATIENCE} seconds {seen()}")
        time.sleep(0.01)


def ends(run, status, error=b"", out=b""):
    """Waits for the end of a run, and compares it."""
    seen = run.communicate(timeout=PATIENCE)
    same("status, standard output and standard error", (run.returncode, *seen), (status, out, error))


def is_one_line(error, form):
    """Sees that standard error has one line, of this form."""
    if not re.fullmatch(form + rb"\n", error):
        raise Differs(f"standard error: {short(error)}")


def state_of(pid):
    """The letter of the state of a process, or None if there is no such process."""
    try:
        return pathlib.Path(f"/proc/{pid}/stat").read_text(encoding="ascii").rpartition(")")[2].split()[0]
    except OSError:
        return None


def is_gone(pid):
    """Whether a process has ended."""
    return state_of(pid) in (None, "Z")
