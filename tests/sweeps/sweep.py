"""What the sweeps share: the library that stands before the C library, and runs under it."""

import os
import pathlib
import subprocess
import sys
import tempfile

SWEEPS = pathlib.Path(__file__).resolve().parent
ROOT = SWEEPS.parents[1]
FAULTS = {b"read": b"ringd: read failed\n", b"write": b"ringd: write failed\n"}
NO_MEMORY = b"ringd: no memory\n"


class Bad(Exception):
    """A run that went otherwise than it has to; its text says where and how."""


class Ran:
    """How a run ended: its status, what it wrote, and whether a call went wrong in it."""

    def __init__(self, status, out, err, told):
        self.status, self.out, self.err, self.told = status, out, err, told


def build_library(folder):
    """Builds the library in this folder; the answer is its path. Ends the script if there is no C compiler."""
    library = pathlib.Path(folder) / "refuse.so"
    found = subprocess.run([SWEEPS / "compiler"], stdout=subprocess.PIPE, text=True, check=False)
    if found.returncode:
        sys.exit(1)
    compiler = found.stdout.rstrip("\n").rpartition("\n")[2]
    subprocess.run([compiler, "-shared", "-fPIC", "-O2", "-o", library, SWEEPS / "refuse.c", "-ldl"], check=True)
    return library


def run(library, command, given=b"", seconds=60, **wrong):
    """Runs a command with this input, where the calls go wrong that the names say: growth=3."""
    ours, theirs = os.pipe()
    try:
        settings = {f"SWEEP_{name.upper()}": str(value) for name, value in wrong.items()}
        environment = {**os.environ, "LD_PRELOAD": str(library), "SWEEP_TELL": str(theirs), **settings}
        with tempfile.TemporaryFile() as source:
            source.write(given)
            source.seek(0)
            ran = subprocess.run(command, stdin=source, capture_output=True, env=environment,
                                 pass_fds=[theirs], timeout=seconds)
        os.set_blocking(ours, False)
        try:
            told = bool(os.read(ours, 1))
        except BlockingIOError:
            told = False
        return Ran(ran.returncode, ran.stdout, ran.stderr, told)
    finally:
        os.close(ours)
        os.close(theirs)
