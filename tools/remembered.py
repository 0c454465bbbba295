"""What the prover said of a crate's edits before, on this machine, in a run of CI of the same files.

It is remembered by a sum of all that decides it: the crate and those below it, its edits, the modules that judge them and
the kit. Only what was all as it must be is remembered, and only if CI made the libraries from the same files.
"""

import contextlib
import hashlib
import json
import os
import pathlib
import tempfile

from crates import TOP, kit
from programs import files_of, planned, sums_of

EDITS = ("wrong", "controls", "laws")
# The modules by which edits are applied, checked and judged.
JUDGES = ("answers", "bodies", "crates", "edits", "goals", "laws", "sources", "twins", "verdicts")


def folder():
    """Where it is remembered."""
    caches = os.environ.get("XDG_CACHE_HOME") or pathlib.Path.home() / ".cache"
    return pathlib.Path(caches, "ringd", "edits")


def sum_of(edits):
    """The sum of all that decides what is said of a crate's wrong bodies, or of its wrong algorithms."""
    decided = sums_of(planned(edits.name), TOP / "crates")[edits.name]
    total = hashlib.sha256(f"{type(edits).__name__} {decided}\n".encode())
    files = [*files_of(TOP / "crates" / edits.name, EDITS), *(TOP / "tools" / f"{it}.py" for it in JUDGES)]
    for file in [*files, kit() / "KIT-ID"]:
        total.update(f"{file.name} {hashlib.sha256(file.read_bytes()).hexdigest()}\n".encode())
    return total.hexdigest()


def recall(total):
    """The results that are remembered by this sum, or None."""
    with contextlib.suppress(OSError, ValueError):
        return json.loads((folder() / total).read_text(encoding="utf-8"))
    return None


def remember(total, results):
    """Remembers results by this sum, if that can be."""
    with contextlib.suppress(OSError):
        folder().mkdir(mode=0o700, parents=True, exist_ok=True)
        with tempfile.NamedTemporaryFile("w", dir=folder(), delete=False, encoding="utf-8") as file:
            json.dump(results, file)
        os.replace(file.name, folder() / total)
