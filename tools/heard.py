"""What a run of `rt ci` has said so far."""

import contextlib
import pathlib
import re

PROVED = re.compile(r"rt: (\w+) (?:proved$|is kept: )")
PUTS_BACK = re.compile(r"rt: (?:ok;|FAILED: )")
ENDED = re.compile(r"\d+ passed, \d+ failed")


class Heard:
    """A run of `rt ci` that writes into a file: the crates that it proved or kept, whether it puts older libraries back, and
    whether it has ended. Each call of `listen` reads only what was written since the call before."""

    def __init__(self, path):
        self.path, self.place, self.begun = pathlib.Path(path), 0, b""
        self.proved, self.puts_back, self.has_ended = set(), False, False

    def listen(self):
        """Reads the new lines of the file, if there are any."""
        new = b""
        with contextlib.suppress(OSError), open(self.path, "rb") as file:
            file.seek(self.place)
            new = file.read()
        if not new:
            return
        self.place += len(new)
        *lines, self.begun = (self.begun + new).split(b"\n")
        for line in lines:
            self.take(line.decode(errors="replace"))
        # the last line of the run may have no end
        if ENDED.match(begun := self.begun.decode(errors="replace")):
            self.take(begun)

    def take(self, line):
        """Takes one whole line."""
        if at := PROVED.match(line):
            self.proved.add(at[1])
        self.has_ended |= bool(ENDED.match(line))
        self.puts_back |= self.has_ended or bool(PUTS_BACK.match(line))
