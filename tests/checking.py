"""Shared by many checks: runs of a program to its end, and functions that are checks, made one after another."""

import os
import pathlib
import subprocess
import sys
import tempfile

from serving import PATIENCE, Differs, same, short


class Program:
    """A built program, and the folder that it is run in."""

    def __init__(self, path, folder):
        self.path = os.path.abspath(path)
        self.folder = pathlib.Path(folder)

    def run(self, *words, given=b"", stdin=None, stdout=subprocess.PIPE):
        """A run to its end: its status, and what it wrote to standard output and to standard error."""
        source = {"stdin": stdin} if stdin else {"input": given}
        ran = subprocess.run([self.path, *words], **source, stdout=stdout, stderr=subprocess.PIPE,
                             cwd=self.folder, timeout=PATIENCE)
        return ran.returncode, ran.stdout or b"", ran.stderr

    def says(self, out, *words, given=b""):
        """A run that must end with status 0 and write this."""
        same_end(words, self.run(*words, given=given), (0, out, b""))

    def fails(self, status, error, *words, given=b"", out=b"", **ends):
        """A run that must end with this status, this line on standard error, and this output."""
        same_end(words, self.run(*words, given=given, **ends), (status, out, error))

    def refuses(self, *words):
        """A run whose words must be refused, with the usage."""
        status, out, error = self.run(*words)
        if b"--help" not in error:
            raise Differs(f"{words}: standard error has no usage: {short(error)}")
        same_end(words, (status, out), (2, b""))


def same_end(words, seen, wanted):
    """Compares the end of a run with these words to the wanted one."""
    for what, one, other in zip(("status", "standard output", "standard error"), seen, wanted):
        if isinstance(one, bytes):
            same_text(f"{' '.join(map(str, words))}: {what}", one, other)
        else:
            same(f"{' '.join(map(str, words))}: {what}, with {short(seen[1:])}", one, other)


def same_text(what, seen, wanted):
    """Compares two texts, and names the first line that differs."""
    ours, theirs = seen.split(b"\n"), wanted.split(b"\n")
    for number, (one, other) in enumerate(zip(ours, theirs), 1):
        same(f"{what}: line {number}", one, other)
    same(f"{what}: number of lines", len(ours), len(theirs))


def listed():
    """An empty list of checks, and the decorator that adds a function to it."""
    checks = []

    def check(function):
        checks.append(function)
        return function

    return checks, check


def make_all(checks, title, make):
    """Makes each check with the program of `make` in a new folder, and prints the checks that fail."""
    failed = 0
    for one in checks:
        with tempfile.TemporaryDirectory() as folder:
            try:
                one(make(folder))
            except (Differs, OSError, subprocess.TimeoutExpired) as error:
                failed += 1
                print(f"{one.__name__}: {error}")
    if failed:
        sys.exit(1)
    print(f"{len(checks)} checks of {title}: all as wanted")
