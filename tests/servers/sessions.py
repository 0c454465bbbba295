"""Checks of the sessions of `serve`: replies, elections, lines and clients next to each other."""

import concurrent.futures
import contextlib
import time

from checking import listed
from servers.program import is_refused
from serving import PATIENCE, Client, Differs, same

CHECKS, check = listed()


def expect_news(client, line, first, wanted):
    """Asks a line for as long as it has the first reply. The reply after that must be the wanted one."""
    reply, patience = first, time.monotonic() + PATIENCE
    while reply == first and time.monotonic() < patience:
        reply = client.ask(line)
    same("reply", reply, wanted)


@check
def two_clients_share_the_groups(program):
    with program.serving(2) as port:
        same("replies", Client(port).told(b"create a chang\njoin a 5\n"), b"ok\nok\n")
        same("replies", Client(port).told(b"members a\n"), b"members 5\n")


@check
def a_client_may_wait_for_each_reply(program):
    with program.serving(1) as port:
        client = Client(port)
        same("reply", client.ask(b"create a chang\n"), b"ok\n")
        began = time.monotonic()
        for number in range(1, 201):
            same("reply", client.ask(b"join a %d\n" % number), b"ok\n")
        if time.monotonic() - began > 6:
            raise Differs("200 replies one by one took more than six seconds")
        same("reply", client.ask(b"join a 1\n"), b"no member\n")
        client.close()


@check
def a_term_that_was_started_is_decided(program):
    for kind, leader in [(b"lelann", 4), (b"chang", 4), (b"hirschberg", 4), (b"peterson", 2)]:
        with program.serving(1) as port:
            client = Client(port)
            same("reply", client.ask(b"create a %s\n" % kind), b"ok\n")
            for member in (4, 1, 3, 2):
                same("reply", client.ask(b"join a %d\n" % member), b"ok\n")
            same("reply", client.ask(b"start a\n"), b"term 1\n")
            for member in (4, 1, 3, 2):
                expect_news(client, b"who a %d\n" % member, b"undecided 1\n", b"leader 1 %d\n" % leader)
            same("reply", client.ask(b"terms a\n"), b"terms 1:%d\n" % leader)
            client.close()


@check
def a_term_is_decided_over_inboxes_of_one_item(program):
    with program.serving(1, inbox=1) as port:
        client = Client(port)
        for line, reply in [(b"create a chang\n", b"ok\n"), (b"join a 1\n", b"ok\n"), (b"join a 2\n", b"ok\n"),
                            (b"start a\n", b"term 1\n")]:
            same("reply", client.ask(line), reply)
        expect_news(client, b"terms a\n", b"terms 1:-\n", b"terms 1:2\n")
        client.close()


@check
def the_member_that_weighs_most_is_elected(program):
    for kind, leader in [(b"lelann", b"1/9"), (b"chang", b"1/9"), (b"hirschberg", b"1/9"), (b"peterson", b"3")]:
        with program.serving(1) as port:
            client = Client(port)
            same("reply", client.ask(b"create a %s\n" % kind), b"ok\n")
            for member in (b"4", b"1/9", b"3", b"2"):
                same("reply", client.ask(b"join a %s\n" % member), b"ok\n")
            same("reply", client.ask(b"join a 1/3\n"), b"no member\n")
            same("reply", client.ask(b"start a\n"), b"term 1\n")
            expect_news(client, b"who a 1\n", b"undecided 1\n", b"leader 1 %s\n" % leader)
            same("reply", client.ask(b"who a 1/9\n"), b"no bad-line\n")
            same("reply", client.ask(b"members a\n"), b"members 4 1/9 3 2\n")
            client.close()


@check
def a_line_that_is_sent_in_pieces_is_one(program):
    with program.serving(1) as port:
        client = Client(port)
        for piece in (b"cre", b"ate a ", b"chang", b"\njo", b"in a 5\n"):
            client.send(piece)
            time.sleep(0.01)
        same("replies", client.line() + client.line(), b"ok\nok\n")
        client.close()


@check
def a_line_without_an_end_is_one(program):
    with program.serving(2) as port:
        same("replies", Client(port).told(b"create a chang\njoin a 6"), b"ok\nok\n")
        same("replies", Client(port).told(b"members a"), b"members 6\n")


@check
def lines_of_no_command_are_refused(program):
    lines = [b"", b"hello", b"deliver a 1 left", b"deliver a 7 left", b"cut a 4294967295 right", b"drain a 1",
             b"drain a 1000000000", b"drain a 1000000001", b"pending a", b"groups ", b"join a 07", b"who a 1/9", b"x" * 129,
             b"x" * 200]
    with program.serving(1) as port:
        replies = Client(port).told(b"".join(line + b"\n" for line in [*lines, b"groups"]))
        same("replies", replies, b"no bad-line\n" * len(lines) + b"groups\n")


@check
def a_megabyte_of_lines_is_answered(program):
    count = 150000
    with program.serving(1) as port, concurrent.futures.ThreadPoolExecutor(1) as pool:
        client = Client(port)
        sender = pool.submit(lambda: (client.send(b"groups\n" * count), client.end_sending()))
        same("replies", client.all(), b"groups\n" * count)
        sender.result(PATIENCE)
        client.close()


@check
def a_client_that_never_reads_holds_nobody_up(program):
    with program.serving(3) as port:
        deaf = Client(port)
        deaf.socket.setblocking(False)
        sent = 0
        with contextlib.suppress(BlockingIOError):
            while sent < 1 << 28:
                sent += deaf.socket.send(b"groups\n" * 8192)
                time.sleep(0.001)
        other = Client(port)
        same("reply", other.ask(b"create a chang\n"), b"ok\n")
        same("reply", Client(port).told(b"groups\n"), b"groups a\n")
        same("reply", other.ask(b"join a 1\n"), b"ok\n")
        other.close()
        deaf.reset()


@check
def a_reset_ends_that_session_alone(program):
    with program.serving(3) as port:
        other = Client(port)
        same("reply", other.ask(b"create a chang\n"), b"ok\n")
        cut = Client(port)
        same("reply", cut.ask(b"join a 5\n"), b"ok\n")
        cut.reset()
        same("reply", other.ask(b"members a\n"), b"members 5\n")
        other.close()
        same("replies", Client(port).told(b"members a\n"), b"members 5\n")


@check
def sixty_four_clients_at_once(program):
    with program.serving(64) as port:
        clients = [Client(port) for _ in range(64)]
        for number, client in enumerate(clients):
            same("reply", client.ask(b"create g%d chang\n" % number), b"ok\n")
        same("reply", clients[0].ask(b"create g63 chang\n"), b"no exists\n")
        if not is_refused(port):
            raise Differs("a 65th client was taken")
        for client in clients:
            client.close()
