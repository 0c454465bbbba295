"""The service whose page is looked at."""

import os
import pathlib
import subprocess
import time

from browser import wait_for
from ports import HOST, free_port
from serving import Client, Differs, ended, short, text_of


class Service:
    """The program with a journal, which is ended and started again. Its journal is this one, or a file of its own."""

    def __init__(self, program, folder, journal=None):
        self.port, self.http, self.run = free_port(), free_port(), None
        file, self.journal = pathlib.Path(folder, f"{self.port}.toml"), pathlib.Path(folder, "journal")
        file.write_bytes(text_of(self.port))
        self.words = [os.path.abspath(program), "run", str(file)]
        self.words += ["--http", str(self.http), "--journal", journal or str(self.journal)]
        self.address = f"{HOST}:{self.http}"
        self.site = f"http://{self.address}/"

    def start(self):
        """Starts it, and waits until it answers."""
        self.begin()
        self.wait()

    def begin(self):
        """Starts it."""
        self.run = subprocess.Popen(self.words, stdin=subprocess.DEVNULL, stdout=subprocess.PIPE,
                                    stderr=subprocess.PIPE)

    def wait(self):
        """Waits until it answers."""
        line = self.run.stdout.readline()
        if line != b"listening 127.0.0.1:%d\n" % self.port:
            self.run.kill()
            raise Differs(f"the first line: {line}, and on standard error {short(self.run.communicate()[1])}")
        wait_for(self.http)

    def end(self):
        """Kills it."""
        if self.run:
            with ended(self.run):
                pass

    def say(self, *lines):
        """Sends lines, none of which may be refused. Returns when they were sent."""
        began = time.monotonic()
        replies = Client(self.port).told("".join(f"{line}\n" for line in lines).encode())
        if replies.count(b"\n") != len(lines) or b"no " in replies:
            raise Differs(f"{lines}: {replies}")
        return began
