"""Checks of paths that are taken: by sockets, by rooms of sockets, and by other files."""

import contextlib
import errno
import fcntl
import os
import pathlib
import socket
import time

from serving import PATIENCE, Client, first_line, same
from sockets.trial import FAILED, IN_USE, NO_SOCKET, refusal


def check_stale(trial):
    """A socket that a dead process left is replaced, also one in the room of a socket."""
    path, room = trial.path("stale"), trial.folder / "stale.new"
    for _ in range(3):
        with trial.serving(path):
            same("groups", Client(path).told(b"groups\n"), b"groups\n")
        same("a dead socket", refusal(path), errno.ECONNREFUSED)
    room.mkdir(mode=0o700)
    with contextlib.closing(socket.socket(socket.AF_UNIX)) as left:
        left.bind(str(room / "s"))
    with trial.serving(path):
        same("the room", room.exists(), False)
        same("groups", Client(path).told(b"groups\n"), b"groups\n")
    os.unlink(path)


def check_living(trial):
    """A socket of a living process stays, and its process is asked as before. A room that a process holds is in use."""
    path, other = trial.path("living"), trial.path("other")
    with trial.serving(path):
        client = Client(path)
        same("reply", client.ask(b"create a chang\n"), b"ok\n")
        for words in (("run", "--socket", path), ("run", "--socket", other, "--campaign", path),
                      ("run", "--socket", other, "--http", path), ("run", "--socket", other, "--campaign", other),
                      ("serve", "--connections", "1", "--socket", path)):
            trial.refused(IN_USE, *words)
        same("reply", client.ask(b"groups\n"), b"groups a\n")
        same("replies", Client(path).told(b"groups\n"), b"groups a\n")
    os.unlink(path)
    with contextlib.closing(socket.socket(socket.AF_UNIX)) as foreign:
        foreign.bind(path)
        foreign.listen()
        trial.refused(IN_USE, "run", "--socket", path)
    os.unlink(path)
    check_held(trial, path)


def check_held(trial, path):
    """A room on which a process, which is this one, has a lock."""
    room = pathlib.Path(f"{path}.new")
    room.mkdir(mode=0o700)
    held = os.open(room, os.O_RDONLY)
    try:
        fcntl.flock(held, fcntl.LOCK_EX | fcntl.LOCK_NB)
        trial.refused(IN_USE, "run", "--socket", path)
    finally:
        os.close(held)
    room.rmdir()


def check_taken(trial):
    """Paths that name something else, and paths that cannot be used."""
    path = pathlib.Path(trial.path("taken"))
    starts = (("run", "--socket", str(path)), ("serve", "--connections", "1", "--socket", str(path)),
              ("run", "--socket", trial.path("first"), "--http", str(path)))
    makers = (lambda: path.write_bytes(b"kept"), path.mkdir, lambda: os.mkfifo(path),
              lambda: path.symlink_to(trial.config), lambda: path.symlink_to(trial.path("none")))
    for make in makers:
        make()
        for words in starts:
            trial.refused(NO_SOCKET, *words)
        path.rmdir() if path.is_dir() else path.unlink()
    with contextlib.closing(socket.socket(socket.AF_UNIX, socket.SOCK_DGRAM)) as letters:
        letters.bind(str(path))
        trial.refused(FAILED, *starts[0])
    path.unlink()
    room = pathlib.Path(f"{path}.new")
    for make in (lambda: room.mkdir(mode=0o755), lambda: room.write_bytes(b"kept"),
                 lambda: room.symlink_to(trial.folder)):
        make()
        trial.refused(FAILED, *starts[0])
        room.rmdir() if room.is_dir() and not room.is_symlink() else room.unlink()
    for long in (str(path).ljust(101, "x"), str(path).ljust(108, "x"), str(path).ljust(5000, "x"),
                 trial.path("none/socket"), f"{trial.config}/socket"):
        trial.refused(FAILED, "run", "--socket", long)


def check_longest(trial):
    """The longest path that is taken."""
    path = str(trial.folder).ljust(99, "/").ljust(100, "y")
    same("the bytes of a path", len(path), 100)
    with trial.serving(path):
        same("groups", Client(path).told(b"groups\n"), b"groups\n")
    os.unlink(path)


def check_at_once(trial):
    """Of several starts at once, one serves the path, and the others say that it is in use."""
    path = trial.path("many")
    for _ in range(trial.rounds):
        with contextlib.ExitStack() as stack:
            runs = [stack.enter_context(trial.start("run", "--socket", path)) for _ in range(6)]
            over = time.monotonic() + PATIENCE
            while sum(run.poll() is None for run in runs) > 1 and time.monotonic() < over:
                time.sleep(0.01)
            serving = [run for run in runs if run.poll() is None]
            same("how many serve", len(serving), 1)
            same("the first line", serving[0].stdout.readline(), first_line(path))
            for run in runs:
                if run is not serving[0]:
                    same("a start too many", (run.communicate(timeout=PATIENCE), run.returncode), ((b"", IN_USE), 1))
            same("a reply", Client(path).told(b"create one chang\n"), b"ok\n")
            same("the room", os.path.exists(f"{path}.new"), False)
    os.unlink(path)
