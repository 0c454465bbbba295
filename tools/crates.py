"""What the programs share that call the prover themselves: the crates, the crates below each, and the prover's words."""

import os
import pathlib
import shutil
import sys

TOP = pathlib.Path(__file__).resolve().parents[1]
PARTS = ("src", "specs", "proofs")


def kit():
    """The folder of the kit, by rt in PATH or by $RATTLE_KIT."""
    found = shutil.which("rt")
    if found:
        return pathlib.Path(found).resolve().parents[1]
    if "RATTLE_KIT" not in os.environ:
        sys.exit("there is no rt in PATH, and $RATTLE_KIT names no kit")
    return pathlib.Path(os.environ["RATTLE_KIT"])


def listed():
    """The lines of crates.txt by the crates that they name, each with the names of the libraries that its crate uses."""
    found = {}
    for line in (TOP / "crates.txt").read_text(encoding="utf-8").splitlines():
        head, _, named = line.partition("#")[0].partition(":")
        if head.strip():
            found[head.split()[0]] = line, named.split()
    return found


def libraries():
    """The libraries that each crate uses, by the lines of crates.txt."""
    return {crate: named for crate, (_, named) in listed().items()}


def below(crate, named):
    """The crates of the repository below a crate, those that they use included."""
    found, left = {}, [crate]
    while left:
        new = [it for it in named[left.pop()] if it in named and it not in found]
        found.update(dict.fromkeys(new))
        left += new
    return list(found)


def built_by_rt(crate):
    """Where rt leaves a crate's library."""
    return TOP / "crates" / crate / "out/rlib" / f"{crate}.rlib"


def words_of(crate, library=built_by_rt, jobs=1):
    """The words of `rattle check` and `rattle build` that say what a crate is, and where the libraries are that it uses."""
    named, home = libraries(), kit()
    is_program = (TOP / "crates" / crate / "src/main.rt").exists()
    words = ["--crate-name", crate, "src/main.rt" if is_program else "src/lib.rt"]
    for name in ["std", *named[crate]]:
        at = library(name) if name in named else home / "rlibs" / f"{name}.rlib"
        words += ["--extern", f"{name}={at}"]
    words += ["-L", f"dependency={home}/rlibs"]
    for name in below(crate, named):
        words += ["-L", f"dependency={library(name).parent}"]
    words += ["--antt-project", f"{home}/rattle/logic/antt-project.json"]
    return [*words, "--logic-built", f"{home}/logic_built", "--links", f"{crate}=", "--jobs", str(jobs)]


def missing(crate, library=built_by_rt):
    """The libraries below a crate that aren't built, which `rt ci` or `rt all check` does."""
    return [it for it in below(crate, libraries()) if not library(it).is_dir()]


def copy_of(crate, to):
    """Copies the sources of a crate."""
    for part in PARTS:
        if (TOP / "crates" / crate / part).is_dir():
            shutil.copytree(TOP / "crates" / crate / part, to / part)
