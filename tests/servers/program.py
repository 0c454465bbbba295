"""The program as a server, and what it must write until its end."""

import contextlib
import pathlib
import subprocess
import time

from serving import PATIENCE, Client, Differs, ended, free_port, same, short, text_of


class Program:
    """The program, as it runs."""

    def __init__(self, path, folder):
        self.path = path
        self.folder = pathlib.Path(folder)

    def write(self, text):
        """A file with a configuration."""
        file = self.folder / "ring.toml"
        file.write_bytes(text)
        return str(file)

    def start(self, *words, stdin=subprocess.DEVNULL, stdout=subprocess.PIPE, limits=None):
        """Starts the program with these words, under the limits that this line of a shell sets."""
        shell = ["sh", "-c", f'{limits}; exec "$0" "$@"'] if limits else []
        return subprocess.Popen([*shell, self.path, *words], stdin=stdin, stdout=stdout,
                                stderr=subprocess.PIPE)

    def fails(self, status, error, *words, stdout=subprocess.PIPE):
        """A run that has to end with this status, and tell this on standard error."""
        with ended(self.start(*words, stdout=stdout)) as run:
            out, told = run.communicate(timeout=PATIENCE)
            same("standard output", out or b"", b"")
            if error is None:
                if b"--help" not in told:
                    raise Differs(f"standard error has no usage: {short(told)}")
            else:
                same("standard error", told, error)
            same("status", run.returncode, status)

    @contextlib.contextmanager
    def listening(self, *words, limits=None, inbox=1024):
        """The program once it listens, with the port."""
        port = free_port()
        name = self.write(text_of(port, inbox=inbox))
        with ended(self.start(words[0], name, *words[1:], limits=limits)) as run:
            same("the first line", run.stdout.readline(), b"listening 127.0.0.1:%d\n" % port)
            yield run, port

    @contextlib.contextmanager
    def serving(self, connections, inbox=1024):
        """The program as it serves so many clients; it has to end with its last line."""
        with self.listening("serve", "--connections", str(connections), inbox=inbox) as (run, port):
            yield port
            out, told = run.communicate(timeout=PATIENCE)
            same("the last line", out, b"closed %d\n" % connections)
            same("standard error", told, b"")
            same("status", run.returncode, 0)


def is_refused(port):
    """Whether nobody listens, or comes to do so no longer."""
    until = time.monotonic() + PATIENCE
    while time.monotonic() < until:
        try:
            Client(port).reset()
        except ConnectionError:
            return True
        time.sleep(0.05)
    return False
