"""Checks of `run`: it serves on, lets clients wait, and ends sessions that are silent or read nothing."""

import contextlib
import signal
import time

from checking import listed
from serving import PATIENCE, Client, Differs, same

CHECKS, check = listed()
# How many clients `--sessions` lets it serve at a time, at most.
MOST = 128


@check
def run_serves_on(program):
    with program.listening("run") as (run, port):
        same("replies", Client(port).told(b"create a chang\n"), b"ok\n")
        for number in range(1, 101):
            same("replies", Client(port).told(b"join a %d\n" % number), b"ok\n")
        same("status", run.poll(), None)
        run.send_signal(signal.SIGTERM)
        same("status", run.wait(PATIENCE), -signal.SIGTERM)


@check
def run_tells_places_where_they_are_asked_for(program):
    for words, first, second in [(("--places",), b"1 ok\n2 ok\n", b"3 members 5\n- no bad-line\n"),
                                 ((), b"ok\nok\n", b"members 5\nno bad-line\n")]:
        with program.listening("run", *words) as (_, port):
            same("replies", Client(port).told(b"create a chang\njoin a 5\n"), first)
            same("replies", Client(port).told(b"members a\nx\n"), second)


@check
def run_has_a_further_client_wait(program):
    with program.listening("run", "--sessions", "2") as (_, port):
        first, second, third = (Client(port) for _ in range(3))
        same("reply", first.ask(b"create a chang\n"), b"ok\n")
        same("reply", second.ask(b"join a 1\n"), b"ok\n")
        third.send(b"members a\n")
        third.socket.settimeout(0.3)
        with contextlib.suppress(TimeoutError):
            third.line()
            raise Differs("a third client was served beside two")
        third.socket.settimeout(PATIENCE)
        first.close()
        same("reply", third.line(), b"members 1\n")
        for client in (second, third):
            client.close()


@check
def run_has_one_client_more_than_it_serves_wait(program):
    with program.listening("run", "--sessions", str(MOST)) as (_, port):
        clients = [Client(port) for _ in range(MOST + 1)]
        for number, client in enumerate(clients[:MOST]):
            same("reply", client.ask(b"create g%d chang\n" % number), b"ok\n")
        clients[MOST].send(b"create last chang\n")
        clients[MOST].socket.settimeout(0.3)
        with contextlib.suppress(TimeoutError):
            clients[MOST].line()
            raise Differs(f"one more client was served beside {MOST}")
        clients[MOST].socket.settimeout(PATIENCE)
        clients[7].reset()
        same("reply", clients[MOST].line(), b"ok\n")
        for client in clients:
            client.close()


@check
def run_ends_a_silent_session(program):
    with program.listening("run", "--sessions", "1", "--idle", "1") as (_, port):
        silent, began = Client(port), time.monotonic()
        same("reply", silent.ask(b"create a chang\n"), b"ok\n")
        same("reply", silent.line(), b"")
        if not 0.9 < time.monotonic() - began < 5:
            raise Differs("a silent session wasn't ended after its second")
        silent.close()
        same("replies", Client(port).told(b"groups\n"), b"groups a\n")


@check
def run_ends_a_session_that_takes_no_reply(program):
    with program.listening("run", "--sessions", "1", "--idle", "1") as (_, port):
        deaf = Client(port)
        deaf.socket.setblocking(False)
        with contextlib.suppress(BlockingIOError):
            for _ in range(1 << 12):
                deaf.socket.send(b"groups\n" * 8192)
                time.sleep(0.001)
        same("replies", Client(port).told(b"groups\n"), b"groups\n")
        deaf.reset()
