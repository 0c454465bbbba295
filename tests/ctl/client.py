"""The client of a check, and a service of `ringd run` that it may ask."""

import contextlib
import os
import subprocess

from checking import Program
from serving import HOST, ended, free_port, same, text_of

NO_SERVICE = b"ringctl: no service answers\n"


class Ringctl(Program):
    """The client, and the service that it belongs to."""

    def __init__(self, path, service, folder):
        super().__init__(path, folder)
        self.service = os.path.abspath(service)

    def start(self, *words, stdin=subprocess.DEVNULL, stdout=subprocess.PIPE):
        """Starts the client."""
        return subprocess.Popen([self.path, *words], stdin=stdin, stdout=stdout, stderr=subprocess.PIPE)

    @contextlib.contextmanager
    def serving(self, *words):
        """`ringd run` with these words as it listens, by its address."""
        port = free_port()
        name = self.folder / "ring.toml"
        name.write_bytes(text_of(port))
        command = [self.service, "run", str(name), *words]
        with ended(subprocess.Popen(command, stdout=subprocess.PIPE, stderr=subprocess.PIPE)) as run:
            same("the first line", run.stdout.readline(), b"listening 127.0.0.1:%d\n" % port)
            yield f"{HOST}:{port}"
