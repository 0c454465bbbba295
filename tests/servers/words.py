"""Checks of the command line: the words that are taken, those that are refused, and the version."""

from checking import listed
from serving import PATIENCE, Differs, ended, same, short

CHECKS, check = listed()
# The name of a journal in etcd has at most 64 bytes.
LONGEST = "etcd://a:1/" + "0123456789abcdef" * 4
# What `serve` and `run` take for the word CONFIG, the file of a configuration.
SERVED = """
CONFIG --connections 2
--connections=64 CONFIG --socket s
--connections +1 --socket-mode 660 --socket=/a/b -- CONFIG
CONFIG --connections 2 --socket s --socket-mode 0
"""
RUN = f"""
CONFIG
--sessions 128 CONFIG
CONFIG --idle=30 --places --sessions 1
CONFIG --idle 86400
CONFIG --journal y
--journal=y/z CONFIG --places
CONFIG --journal=
CONFIG --journal etcd:/a
CONFIG --journal ./etcd://
CONFIG --journal etcd://a:2379/b
CONFIG --journal etcd://a:2379,b:2379/jobs
CONFIG --journal etcd://a:1,b:2,[::1]:3/Jobs_2-b
CONFIG --journal {LONGEST}
CONFIG --campaign 7401 --http c/d
CONFIG --campaign 1 --http 65535 --socket-mode 777
CONFIG --campaign ./a --http /b --socket c
--socket-mode=660 CONFIG --socket s --idle 5
"""
# Command lines with a number out of range, a missing word or a word too many.
MISTAKEN = """
serve
serve x
serve --connections 2
serve x --connections
serve x --connections 0
serve x --connections 65
serve x --connections x
serve x --connections -1
serve x --connections 4294967298
serve x --connections 2 --connections 2
serve x y --connections 2
serve x --connections 2 --sessions 2
run
run x y
run x --sessions 0
run x --sessions 129
run x --idle 86401
run x --idle 1.5
run x --connections 2
run x --places --places
run x --places=true
run x --journal
run x --journal y --journal z
run --journal y
run x --campaign
run x --http
run x --socket
run x --socket a --socket b
run x --socket-mode
replay --socket a
journal x --socket a
serve x --connections 2 --http 7402
serve x --connections 2 --campaign 7401
serve x --connections 2 --journal y
replay --journal y
journal
journal x y
journal x --places
serve --help
run --help
"""
# Command lines with a text that is no place, no path, no mode or no journal.
MISGIVEN = f"""
run x --campaign 0
run x --campaign 65536
run x --campaign a
run x --http 0
run x --http 65536
run x --http 7402.
run x --http 0 --journal y
run x --socket=
run x --socket-mode 8
run x --socket-mode 1000
serve x --connections 2 --socket s --socket-mode x
run x --journal etcd://
run x --journal etcd://x
run x --journal etcd:///b
run x --journal etcd://a/b
run x --journal etcd://a:1,/b
run x --journal etcd://a:1/
run x --journal etcd://a:1/b/c
run x --journal etcd://a:1/b.c
run x --journal {LONGEST}0
journal etcd://a:1
journal etcd://a:1//b
journal {LONGEST}0
"""
# Command lines without a subcommand, or with one that is none or has no words.
OTHERS = """
x
replay y
replay replay
Replay
-- replay
replay --version
--help
help
help run
help replay
replay -h
"""


def lines_of(text):
    """Returns the command lines of a text, each as its words."""
    return [line.split() for line in text.strip().splitlines()]


def refused(program, part, *words):
    """Sees that these words end the program with status 2 and a text on standard error that has this part."""
    with ended(program.start(*words)) as run:
        out, told = run.communicate(timeout=PATIENCE)
    same(f"{words}: standard output and status", (out, run.returncode), (b"", 2))
    if part not in told:
        raise Differs(f"{words}: standard error has no {part.decode()}: {short(told)}")


@check
def words_of_the_command_line_are_taken(program):
    """No file is there, which is told only if the words are taken."""
    missing = str(program.folder / "none")
    for command, text in (("serve", SERVED), ("run", RUN)):
        for line in lines_of(text):
            words = [missing if word == "CONFIG" else word for word in line]
            program.fails(1, b"ringd: config unreadable\n", command, *words)
    for words in ([missing], ["--", missing]):
        program.fails(1, b"ringd: journal unreadable\n", "journal", *words)
    for words in (["replay"], ["replay", "--"]):
        program.fails(0, b"", *words)


@check
def refused_words_are_told_with_the_usage(program):
    for part, text in ((b"--help", MISTAKEN), (b"--help", MISGIVEN), (b"Usage: ringd", OTHERS)):
        for words in lines_of(text):
            refused(program, part, *words)
    refused(program, b"Usage: ringd")
    for part in (b"a word is not UTF-8 text", b"Usage: ringd"):
        refused(program, part, "run", b"\xff")


@check
def the_version_is_told(program):
    for words in (("--version",), ("-V",), ("--version", "replay")):
        with ended(program.start(*words)) as run:
            out, told = run.communicate(timeout=PATIENCE)
            same("standard error", told, b"")
            same("standard output", out, b"ringd 1.0.0\n")
            same("status", run.returncode, 0)
    with open("/dev/full", "wb") as full:
        program.fails(1, b"ringd: write failed\n", "--version", stdout=full)
