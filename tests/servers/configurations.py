"""Checks of the configurations that `serve` and `run` read or refuse, and of a port that is in use."""

import os
import socket

from checking import listed
from serving import HOST, PATIENCE, Client, ended, free_port, same, text_of

CHECKS, check = listed()


@check
def a_port_in_use_is_told(program):
    with socket.socket() as taken:
        taken.bind((HOST, 0))
        taken.listen()
        name = program.write(text_of(taken.getsockname()[1]))
        program.fails(1, b"ringd: listen failed\n", "serve", name, "--connections", "1")
        program.fails(1, b"ringd: listen failed\n", "run", name)


@check
def wrong_configurations_are_told(program):
    port = free_port()
    for text in (b"", text_of(port, workers=0), text_of(port, workers=9), text_of(port, inbox=0),
                 text_of(port, inbox=65537), text_of(0), text_of(65536), text_of(f'"{port}"'),
                 text_of(port) + b"x = 1\n", text_of(port) + b"port = 1\n", text_of(port) + b"#\xff\n",
                 text_of(port, workers="2.0"), text_of(port, workers="true"), text_of(port, inbox=-1), text_of(-port),
                 text_of(4294974696), text_of(f"{port}.0"), text_of(port).rstrip() + b" # \xff\n",
                 text_of(port).replace(b" =", b":"),
                 text_of(port, inbox="[1024]"), b"[ring]\n" + text_of(port), b"workers: 2\n",
                 b"inbox = 1024\nport = 7400\n", b"workers = 2\nport = 7400\n", b"workers = 2\ninbox = 1\n",
                 text_of(0) + b"#" * (65535 - len(text_of(0))) + b"\n"):
        name = program.write(text)
        program.fails(1, b"ringd: config bad\n", "serve", name, "--connections", "1")
        program.fails(1, b"ringd: config bad\n", "run", name)


@check
def a_configuration_has_many_spellings(program):
    port = free_port()
    for text in (b"# ours\r\nport=0x%x\r\n\r\n'inbox' = 1_024\r\n\"workers\" = +8" % port, text_of(port, 8, 65536),
                 text_of(port, 1, 1) + b"#" * (65536 - len(text_of(port, 1, 1)))):
        name = program.write(text)
        with ended(program.start("serve", name, "--connections", "1")) as run:
            same("the first line", run.stdout.readline(), b"listening 127.0.0.1:%d\n" % port)
            same("replies", Client(port).told(b"groups\n"), b"groups\n")
            same("what it wrote besides", run.communicate(timeout=PATIENCE), (b"closed 1\n", b""))


@check
def a_configuration_has_at_most_65536_bytes(program):
    for words in (("serve", "--connections", "1"), ("run",)):
        port = free_port()
        text = text_of(port)
        # What it says stands at its end, so it has to be read whole.
        longest = (b"\n" + text).rjust(65536, b"#")
        with ended(program.start(words[0], program.write(longest), *words[1:])) as run:
            same("the first line", run.stdout.readline(), b"listening 127.0.0.1:%d\n" % port)
            same("replies", Client(port).told(b"groups\n"), b"groups\n")
        name = program.write(b"#" + longest)
        program.fails(1, b"ringd: config unreadable\n", words[0], name, *words[1:])


@check
def as_many_threads_work_as_the_configuration_says(program):
    for workers in (1, 2, 8):
        port = free_port()
        name = program.write(text_of(port, workers))
        with ended(program.start("serve", name, "--connections", "1")) as run:
            same("the first line", run.stdout.readline(), b"listening 127.0.0.1:%d\n" % port)
            same("threads", len(os.listdir(f"/proc/{run.pid}/task")), workers + 1)


@check
def files_that_can_not_be_read_are_told(program):
    long = program.write(text_of(free_port()) + b"#" * 65536)
    for name in (long, str(program.folder), str(program.folder / "none"), "/dev/zero", ""):
        program.fails(1, b"ringd: config unreadable\n", "serve", name, "--connections", "1")
        program.fails(1, b"ringd: config unreadable\n", "run", name)
