"""Checks of standard input and of standard output."""

import os
import socket
import subprocess

from checking import listed
from serving import PATIENCE, Client, Differs, ended, free_port, same, text_of

CHECKS, check = listed()


@check
def a_full_standard_output_is_told(program):
    name = program.write(text_of(free_port()))
    for words in (("serve", name, "--connections", "1"), ("run", name)):
        with open("/dev/full", "wb") as full:
            program.fails(1, b"ringd: write failed\n", *words, stdout=full)


@check
def a_standard_output_that_nobody_reads_is_told_at_the_end(program):
    with program.listening("serve", "--connections", "1") as (run, port):
        run.stdout.close()
        client = Client(port)
        same("reply", client.ask(b"create a chang\n"), b"ok\n")
        client.close()
        same("standard error", run.stderr.read(), b"ringd: write failed\n")
        same("status", run.wait(PATIENCE), 1)


@check
def a_closed_pipe_ends_a_replay_at_once(program):
    lines = program.folder / "endless.ring"
    lines.write_bytes(b"groups\n" * 1_000_000)
    with lines.open("rb") as endless, ended(program.start("replay", stdin=endless)) as run:
        run.stdout.close()
        same("standard error", run.stderr.read(), b"ringd: write failed\n")
        same("status", run.wait(PATIENCE), 1)
        left = lines.stat().st_size - os.lseek(endless.fileno(), 0, os.SEEK_CUR)
        if left < 4_000_000:
            raise Differs(f"it read on after the failed write: {left} bytes are left")


@check
def a_standard_input_that_cannot_be_read_ends_a_replay_at_once(program):
    folder = os.open(program.folder, os.O_RDONLY)
    with ended(program.start("replay", stdin=folder)) as run:
        os.close(folder)
        out, told = run.communicate(timeout=PATIENCE)
        same("standard output", out, b"")
        same("standard error", told, b"ringd: read failed\n")
        same("status", run.returncode, 1)


@check
def a_replay_replies_before_it_reads_on(program):
    for pieces in ([(b"create a chang\n", b"ok\n"), (b"join a 3\n", b"ok\n"), (b"groups\n", b"groups a\n")],
                   [(b"create a chang\njoin a 3\ngro", b"ok\nok\n"), (b"ups", b""),
                    (b"\n\nwho", b"groups a\nno bad-line\n")]):
        with ended(program.start("replay", stdin=subprocess.PIPE)) as run:
            for piece, replies in pieces:
                run.stdin.write(piece)
                run.stdin.flush()
                same("replies", b"".join(run.stdout.readline() for _ in range(replies.count(b"\n"))), replies)
            out, told = run.communicate(timeout=PATIENCE)
            rest = b"no bad-line\n" if piece.endswith(b"who") else b""
            same("the rest, standard error and status", (out, told, run.returncode), (rest, b"", 0))


@check
def replies_to_one_read_may_be_longer_than_a_page(program):
    """A page has room for 65536 bytes, and is written by one call. Such a socket shows each call."""
    names = [b"%c%c" % (97 + number // 10, 97 + number % 10) for number in range(100)]
    lines = b"".join(b"create %s chang\n" % name for name in names) + b"groups\n" * 400
    ours, theirs = socket.socketpair(socket.AF_UNIX, socket.SOCK_SEQPACKET)
    with ours, ended(program.start("replay", stdin=subprocess.PIPE, stdout=theirs)) as run:
        theirs.close()
        run.stdin.write(lines)
        run.stdin.close()
        ours.settimeout(PATIENCE)
        written = list(iter(lambda: ours.recv(1 << 20), b""))
    same("replies", b"".join(written), b"ok\n" * 100 + (b" ".join([b"groups", *names]) + b"\n") * 400)
    if not 60000 < max(map(len, written)) <= 65536:
        raise Differs(f"the longest of {len(written)} writes has {max(map(len, written))} bytes")
