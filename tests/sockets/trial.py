"""The program at sockets, and what is seen of them."""

import contextlib
import os
import pathlib
import stat
import subprocess

from serving import PATIENCE, connected, ended, first_line, free_port, same, text_of, was_killed

IN_USE, NO_SOCKET, FAILED = b"ringd: in use\n", b"ringd: not a socket\n", b"ringd: listen failed\n"


class Trial:
    """The program, and a folder in which its sockets are made."""

    def __init__(self, words, folder):
        self.program, self.ringctl = os.path.abspath(words.program), os.path.abspath(words.ringctl)
        self.folder, self.rounds = pathlib.Path(folder), words.rounds
        self.config = self.folder / "ring.toml"
        self.config.write_bytes(text_of(free_port()))

    def path(self, name):
        """A path in the folder."""
        return str(self.folder / name)

    def start(self, *words, **given):
        """Starts the program with these words after the configuration."""
        start = [self.program, words[0], str(self.config), *words[1:]]
        return ended(subprocess.Popen(start, stdin=subprocess.DEVNULL, stdout=subprocess.PIPE, stderr=subprocess.PIPE,
                                      **given))

    @contextlib.contextmanager
    def serving(self, path, *words, **given):
        """`ringd run` as it serves sessions at a path, until it is killed."""
        with self.start("run", "--socket", path, *words, **given) as run:
            same("the first line", run.stdout.readline(), first_line(path))
            yield run
            run.kill()
            same("what it wrote besides", run.communicate(timeout=PATIENCE), (b"", b""))
            was_killed(run)

    def refused(self, fault, *words):
        """A start that ends with a fault and changes nothing."""
        before = names_in(self.folder)
        with self.start(*words) as run:
            same(f"what {words} wrote", run.communicate(timeout=PATIENCE), (b"", fault))
            same(f"the status of {words}", run.returncode, 1)
        same(f"the folder after {words}", names_in(self.folder), before)


def names_in(folder):
    """All names below a folder, with the numbers, modes and sizes of what they name."""
    found = {}
    for path in sorted(folder.rglob("*")):
        about = path.lstat()
        found[str(path)] = about.st_ino, stat.filemode(about.st_mode), about.st_size
    return found


def mode_of(path):
    """The mode of a socket."""
    about = os.lstat(path)
    same(f"whether {path} is a socket", stat.S_ISSOCK(about.st_mode), True)
    return stat.S_IMODE(about.st_mode)


def refusal(path):
    """Why a client cannot connect."""
    try:
        connected(path).close()
    except OSError as error:
        return error.errno
    return 0
