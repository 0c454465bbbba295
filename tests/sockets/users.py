"""Checks of other users of the machine, who are let in by the mode and the group of a socket. They need root."""

import errno
import os
import pathlib

from serving import Client, same
from sockets.trial import FAILED, refusal

NOBODY, GROUP = 65534, 54321


def displacement(path):
    """Why a client cannot put a file of its own in the place of a socket."""
    try:
        pathlib.Path(f"{path}.mine").write_bytes(b"mine")
        os.rename(f"{path}.mine", path)
    except OSError:
        pass
    try:
        os.unlink(path)
    except OSError as error:
        return error.errno
    return 0


def as_user(groups, path, tried=refusal):
    """Why another user, in these groups besides its own, can't connect, or can't do what is tried: 0 if it can."""
    reader, writer = os.pipe()
    child = os.fork()
    if child == 0:
        number = 255
        try:
            os.setgroups(groups)
            os.setgid(NOBODY)
            os.setuid(NOBODY)
            number = tried(path)
        finally:
            os.write(writer, bytes([number]))
            os._exit(0)
    os.close(writer)
    os.waitpid(child, 0)
    with open(reader, "rb") as told:
        return told.read()[0]


def check_users(trial):
    """Other users of the machine."""
    path = trial.path("guarded")
    with trial.serving(path):
        same("another user with 0600", as_user([], path), errno.EACCES)
        same("one in the group with 0600", as_user([0], path), errno.EACCES)
    with trial.serving(path, "--socket-mode", "660", group=GROUP):
        same("the group of the socket", os.lstat(path).st_gid, GROUP)
        same("another user with 0660", as_user([], path), errno.EACCES)
        same("one in the group with 0660", as_user([GROUP], path), 0)
        same("one in the group that replaces the socket", as_user([GROUP], path, displacement), errno.EACCES)
        same("a socket after that", Client(path).told(b"groups\n"), b"groups\n")
    os.unlink(path)
    room = pathlib.Path(f"{path}.new")
    room.mkdir(mode=0o700)
    os.chown(room, NOBODY, NOBODY)
    trial.refused(FAILED, "run", "--socket", path)
    room.rmdir()
