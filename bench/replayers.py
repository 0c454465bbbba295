"""The replayers that are compared: their names in the tables, and their commands."""

import pathlib
import shlex
import subprocess

import measure

PLAIN = pathlib.Path(__file__).resolve().parent / "plain"


class Replayer:
    def __init__(self, name, command):
        self.name = name
        self.command = command


def plain_ones():
    """Builds the plain replayer; the answers are its two ways: without journals, and with them."""
    target = PLAIN / "target"
    build = ["cargo", "build", "--release", "--offline", "--quiet",
             "--manifest-path", PLAIN / "Cargo.toml", "--target-dir", target]
    subprocess.run(build, check=True)
    program = str(target / "release" / "plain-replay")
    return [Replayer("bare", [program, "--no-journals"]), Replayer("plain", [program])]


def proved_one(command, folder):
    """Calls the script, which builds the proved program; the answer is the program behind it."""
    program = measure.program_behind(shlex.split(command), folder / "lines", folder / "replies")
    return Replayer("proved", program)
