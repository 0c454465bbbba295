"""Runs a replayer over lines and measures it."""

import contextlib
import hashlib
import os
import pathlib
import subprocess
import time

# How long a run may give no reply at all, in seconds.
PATIENCE = 120


class Failed(Exception):
    """A run that didn't end well."""


class Usage:
    """What one timed run took, and a digest of what it wrote."""

    def __init__(self, processor, wall, digest):
        self.processor = processor
        self.wall = wall
        self.digest = digest


def digest_of(path):
    with path.open("rb") as replies:
        return hashlib.file_digest(replies, "sha256").hexdigest()


def deliveries_in(replies):
    """The deliveries that the replies of a run tell of."""
    with replies.open("rb") as lines:
        return sum(int(line.split()[1]) if line.startswith(b"drained ") else line == b"moved\n"
                   for line in lines)


def leaders_in(replies):
    """How many replies of a run name a leader."""
    with replies.open("rb") as lines:
        return sum(line.startswith(b"leader ") for line in lines)


def timed_run(command, lines, replies):
    """Runs over a file of lines; the time is that of the process and what it waited for."""
    with lines.open("rb") as source, replies.open("wb") as target:
        begin = time.perf_counter()
        process = subprocess.Popen(command, stdin=source, stdout=target)
        _, status, usage = os.wait4(process.pid, 0)
        wall = time.perf_counter() - begin
    process.returncode = os.waitstatus_to_exitcode(status)
    if process.returncode != 0:
        raise Failed(f"{command[0]} ended with status {process.returncode}")
    return Usage(usage.ru_utime + usage.ru_stime, wall, digest_of(replies))


def family(pid):
    """The process, then its descendants."""
    children = pathlib.Path(f"/proc/{pid}/task/{pid}/children").read_text().split()
    return [pid] + [each for child in children for each in family(int(child))]


def peak_of(pid):
    """The greatest resident memory of one process so far, in bytes."""
    status = pathlib.Path(f"/proc/{pid}/status").read_text().splitlines()
    peak = next(line for line in status if line.startswith("VmHWM:"))
    return int(peak.split()[1]) * 1024


class HeldRun:
    """A run whose input is kept open, so that the process can be looked at after its work."""

    def __init__(self, command, replies):
        self.target = replies.open("wb")
        self.replies = replies.open("rb")
        self.process = subprocess.Popen(command, stdin=subprocess.PIPE, stdout=self.target)

    def __enter__(self):
        return self

    def feed(self, lines):
        """Gives all lines, and waits until each has its reply."""
        count = 0
        for piece in iter(lambda: lines.read(1 << 20), b""):
            self.process.stdin.write(piece)
            count += piece.count(b"\n")
        self.process.stdin.flush()
        self.wait_for(count)

    def wait_for(self, count):
        """Waits for this many replies."""
        last = time.monotonic()
        while count > 0:
            found = self.replies.read(1 << 20).count(b"\n")
            count -= found
            if found > 0:
                last = time.monotonic()
            elif self.process.poll() is not None:
                raise Failed(f"it ended with {count} lines not answered")
            elif time.monotonic() - last > PATIENCE:
                raise Failed(f"no reply for {PATIENCE} seconds, with {count} lines not answered")
            else:
                time.sleep(0.005)

    def __exit__(self, *_):
        with contextlib.suppress(BrokenPipeError):
            self.process.stdin.close()
        self.process.wait()
        self.target.close()
        self.replies.close()


def peak_memory(command, lines, replies):
    """The greatest resident memory over a file of lines, in bytes."""
    with HeldRun(command, replies) as run, lines.open("rb") as source:
        run.feed(source)
        return max(peak_of(pid) for pid in family(run.process.pid))


def program_behind(command, lines, replies):
    """The command that a script ends in, so that the script itself isn't measured. The script
    is called once before that, for it may have to build the program."""
    subprocess.run(command, stdin=subprocess.DEVNULL, check=True)
    lines.write_bytes(b"groups\n")
    with HeldRun(command, replies) as run, lines.open("rb") as source:
        run.feed(source)
        last = pathlib.Path(f"/proc/{family(run.process.pid)[-1]}")
        words = (last / "cmdline").read_bytes().split(b"\0")[1:-1]
        return [os.readlink(last / "exe"), *(os.fsdecode(word) for word in words)]
