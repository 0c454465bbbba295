"""Checks of `serve` and `run` that lack descriptors, or memory for a thread."""

import contextlib
import resource

from checking import listed
from processes import figure_of
from servers.program import is_refused
from serving import PATIENCE, Client, Differs, ended, free_port, same, text_of, was_killed

CHECKS, check = listed()


def ends_after(run, clients, line):
    """These clients close. The program ends then, with this line on standard error and status 1."""
    for client in clients:
        client.close()
    same("what it wrote besides", run.communicate(timeout=PATIENCE), (b"", line))
    same("status", run.returncode, 1)


@check
def run_waits_for_descriptors(program):
    with program.listening("run", limits="ulimit -n 16") as (run, port):
        clients = [Client(port) for _ in range(16)]
        same("reply", clients[0].ask(b"create a chang\n"), b"ok\n")
        same("standard error", run.stderr.readline(), b"ringd: accept failed, trying again\n")
        for client in clients:
            same("reply", client.ask(b"groups\n"), b"groups a\n")
            client.close()
        run.kill()
        same("the rest of standard error", run.stderr.read(), b"")
        was_killed(run)


@check
def serve_ends_without_descriptors(program):
    with program.listening("serve", "--connections", "8", limits="ulimit -n 8") as (run, port):
        clients = [Client(port) for _ in range(4)]
        for number, client in enumerate(clients):
            same("reply", client.ask(b"create g%d chang\n" % number), b"ok\n")
        if not is_refused(port):
            raise Differs("a client was taken after the failed accept")
        same("reply", clients[0].ask(b"groups\n"), b"groups g0 g1 g2 g3\n")
        ends_after(run, clients, b"ringd: accept failed\n")


@check
def serve_ends_without_memory_for_a_thread(program):
    with program.listening("serve", "--connections", "64") as (run, port):
        first = Client(port)
        same("reply", first.ask(b"create a chang\n"), b"ok\n")
        room = figure_of(run.pid, "VmSize") + (32 << 20)
        resource.prlimit(run.pid, resource.RLIMIT_AS, (room, room))
        clients = [first]
        with contextlib.suppress(ConnectionError):
            while len(clients) < 64 and clients[-1].ask(b"groups\n") == b"groups a\n":
                clients.append(Client(port))
        same("reply", first.ask(b"groups\n"), b"groups a\n")
        ends_after(run, clients, b"ringd: thread failed\n")


@check
def run_ends_without_memory_for_its_threads(program):
    name = program.write(text_of(free_port()))
    out = b"listening 127.0.0.1:"
    with ended(program.start("run", name, "--sessions", "64", limits="ulimit -v 200000")) as run:
        told, error = run.communicate(timeout=PATIENCE)
        same("standard output", told[:len(out)], out)
        same("standard error", error, b"ringd: thread failed\n")
        same("status", run.returncode, 1)
