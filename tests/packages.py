"""Debian packages of the programs: how they are made, and checks of them before they are installed."""

import datetime
import os
import pathlib
import re
import subprocess
import time

from serving import Differs, same

TOP = pathlib.Path(__file__).resolve().parents[1]
# How many seconds a command may take.
LONGEST = 600
# What the later version adds to its configuration.
THEIRS = "# theirs\n"


class Package:
    """A package that was made, and the programs that are in it."""

    def __init__(self, path, programs):
        self.path, self.programs = pathlib.Path(path), programs
        self.version = output("dpkg-deb", "-f", path, "Version").strip()

    @classmethod
    def made(cls, folder, programs):
        """The package that tools/package makes of these programs."""
        return cls(output(TOP / "tools/package", folder, *programs).strip(), programs)

    def next(self, folder):
        """A package of a later version, with another configuration."""
        tree, path = pathlib.Path(folder, "tree"), pathlib.Path(folder, "next.deb")
        output("dpkg-deb", "--raw-extract", self.path, tree)
        control = tree / "DEBIAN/control"
        control.write_text(control.read_text().replace(f"Version: {self.version}", f"Version: {self.version}+next"))
        with open(tree / "etc/ringd.toml", "a", encoding="utf-8") as config:
            config.write(THEIRS)
        output("dpkg-deb", "--root-owner-group", "-Znone", "--build", tree, path)
        return Package(path, self.programs)


def output(*words, within=()):
    """What a command prints, which must end with status 0."""
    words = [*within, *map(str, words)]
    env = dict(os.environ, LC_ALL="C", DEBIAN_FRONTEND="noninteractive")
    ran = subprocess.run(words, env=env, stdin=subprocess.DEVNULL, capture_output=True, text=True, timeout=LONGEST,
                         check=False)
    if ran.returncode:
        raise Differs(f"{' '.join(words)}: status {ran.returncode}, {(ran.stdout + ran.stderr)[-400:]}")
    return ran.stdout


def check_version(package):
    """It has one version, which the sources name once."""
    source = (TOP / "crates/ring_words/src/commands.rt").read_text(encoding="utf-8")
    same("the version of the sources", re.findall(r'^const VERSION: &str = "(.*)";$', source, re.M), [package.version])
    headings = re.findall(r"^## (.*)$", (TOP / "CHANGELOG.md").read_text(encoding="utf-8"), re.M)
    version, date = headings[0].split(" ")
    same("the newest version of CHANGELOG", version, package.version)
    same("its date", datetime.date.fromisoformat(date).isoformat(), date)
    same("--version", output(package.programs[0], "--version"), f"ringd {package.version}\n")
    same("the name of the package", package.path.name, f"ringd_{package.version}_amd64.deb")


def check_bytes(package, folder):
    """A package of the same programs has the same bytes, also a second later."""
    time.sleep(1.1)
    other = Package.made(pathlib.Path(folder, "again"), package.programs)
    same("the same bytes", other.path.read_bytes() == package.path.read_bytes(), True)


def check_lintian(package):
    """lintian finds no error. What else it finds is printed. Returns the number of its warnings."""
    told = output("lintian", "--allow-root", "--fail-on", "error", package.path)
    print(told, end="")
    return len(re.findall("^W: ", told, re.M))
