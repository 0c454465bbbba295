"""Checks of commands and sessions: what is sent, what is printed, and what is no service."""

import contextlib
import os
import pty
import socket
import time

from checking import listed
from ctl.client import NO_SERVICE
from ctl.fakes import USUAL_CAMPAIGNS, USUAL_PORT, Fake, text
from serving import HOST, PATIENCE, ended, free_port, same

CHECKS, check = listed()
# The longest reply that is read, with its end.
LONGEST = 65536
REPLIES = [(b"create a chang", b"ok"), (b"start b", b"no no-group"), (b"members a", b"members"),
           (b"who a 3", b"leader 1 3"), (b"terms a", b"terms 1:3")]


@check
def each_line_has_its_reply(ringctl):
    """A session asks the lines in their order, and prints what comes; empty lines are asked of nobody."""
    asked, replies = text(line for line, _ in REPLIES), text(reply for _, reply in REPLIES)
    for given in (asked, b"\n" + asked.replace(b"\n", b"\n\n"), asked[:-1]):
        with Fake(replies) as service:
            ringctl.says(replies, "--address", service.address, given=given)
            service.had(asked)


@check
def each_command_has_its_reply(ringctl):
    """The same lines one by one: a refusal's word goes to standard error, with status 1."""
    for line, reply in REPLIES:
        with Fake(reply + b"\n") as service:
            words = ("--address", service.address, *line.decode().split())
            if reply.startswith(b"no "):
                ringctl.fails(1, reply[3:] + b"\n", *words)
            else:
                ringctl.says(reply + b"\n", *words)
            service.had(line + b"\n")


def is_no_service(ringctl, replies, how="end"):
    """What gives these bytes is no service: for a command, for a session, and for one that had a reply before."""
    for front, words, given in ((b"", ("groups",), b""), (b"", (), b"groups\n"),
                                (b"groups a\n", (), b"groups\ngroups\n")):
        if front and how == "reset":
            continue
        with Fake(front + replies, how=how) as service:
            ringctl.fails(3, NO_SERVICE, "--address", service.address, *words, given=given, out=front)


@check
def what_answers_otherwise_is_no_service(ringctl):
    """Nothing, half a line, a line of another protocol, and lines that are no replies."""
    for replies in (b"", b"ok", b"HTTP/1.1 400 Bad Request\n", b"\n", b"okay\n", b"no\n", b"ok\xff\n"):
        is_no_service(ringctl, replies)


@check
def who_resets_or_never_listened_is_no_service(ringctl):
    is_no_service(ringctl, b"", how="reset")
    for address in (f"{HOST}:{free_port()}", f"[::1]:{free_port()}"):
        for words in (("groups",), (), ("watch", "a"), ("campaign", "a", "1")):
            ringctl.fails(3, NO_SERVICE, "--address", address, *words)


@check
def a_reply_is_read_to_its_longest(ringctl):
    """One of so many bytes with its end is printed; one of more is none, and its end isn't waited for."""
    longest = b"terms " + b"x" * (LONGEST - 7) + b"\n"
    with Fake(longest) as service:
        ringctl.says(longest, "--address", service.address, "terms", "a")
    is_no_service(ringctl, b"x" + longest)
    is_no_service(ringctl, longest[:-1] + b"x" * 9, how="stay")


@check
def words_give_orders_at_the_usual_address(ringctl):
    """Where no address is given it is 127.0.0.1:7400. Words are joined by one space each."""
    for words, given, asked in (("", b"hello\n", b"hello\n"), ("who a 3", b"", b"who a 3\n"),
                                ("create a chang", b"", b"create a chang\n"), ("-- join -a 1", b"", b"join -a 1\n")):
        with Fake(b"ok\n", USUAL_PORT) as service:
            ringctl.says(b"ok\n", *words.split(), given=given)
            service.had(asked)


@check
def words_give_addresses(ringctl):
    """A host by its name, and one in brackets, where this machine has such addresses."""
    with Fake(b"groups\n") as service:
        ringctl.says(b"groups\n", "--address", f"localhost:{service.port}", "groups")
        service.had(b"groups\n")
    with contextlib.closing(socket.socket(socket.AF_INET6)) as probe:
        try:
            probe.bind(("::1", 0))
        except OSError:
            return ringctl.fails(3, NO_SERVICE, "groups", "--address=[::1]:99")
    with Fake(b"groups\n", host="::1") as service:
        ringctl.says(b"groups\n", "groups", f"--address=[::1]:{service.port}")
        service.had(b"groups\n")


@check
def the_first_that_listens_is_asked(ringctl):
    """Of several addresses, in their order. The others are asked nothing."""
    nobody, none = f"{HOST}:{free_port()}", f"unix:{ringctl.folder / 'none'}"
    with Fake(b"groups other\n") as other:
        for before in ((), (nobody,), (none,), (nobody, none, nobody)):
            with Fake(b"groups\n") as service:
                addresses = ",".join([*before, service.address, other.address])
                ringctl.says(b"groups\n", "--address", addresses, "groups")
                service.had(b"groups\n")
        other.had_nothing()
    with Fake(b"members\n") as service:
        ringctl.says(b"", "--address", f"{nobody},{service.address}", "watch", "a", "--for", "0")
        service.had(b"members a\n")
    with Fake(b"ok\n") as service:
        ringctl.fails(3, NO_SERVICE, "--address", f"{nobody},{service.address}", "campaign", "a", "7", out=b"ok\n")
        service.had(b"join a 7\n\n")


@check
def if_none_listens_there_is_no_service(ringctl):
    """Also if a service accepts the connection and answers nothing: the addresses after it are not tried."""
    nobody = [f"{HOST}:{free_port()}", f"unix:{ringctl.folder / 'none'}"]
    for words in (("groups",), (), ("watch", "a"), ("campaign", "a", "1")):
        ringctl.fails(3, NO_SERVICE, "--address", ",".join(nobody), *words)
    with Fake(b"") as service, Fake(b"groups\n") as other:
        ringctl.fails(3, NO_SERVICE, "--address", f"{service.address},{other.address}", "groups")
        other.had_nothing()


@check
def a_path_may_have_commas(ringctl):
    """A text of which a part is no address is one address."""
    path = ringctl.folder / "a,b"
    with Fake(b"groups\n", path=path) as service, Fake(b"groups other\n") as other:
        ringctl.says(b"groups\n", "--address", f"unix:{path}", "groups")
        service.had(b"groups\n")
        ringctl.fails(3, NO_SERVICE, "--address", f"unix:{path},,{other.address}", "groups")
        other.had_nothing()


@check
def other_words_are_refused(ringctl):
    for words in ("who a", "who a 03", "drain a 5", "elect a", "watch", "watch A", "watch a --for soon",
                  "groups --for 7", "--for 7", "--address nowhere groups", "--address :99 groups",
                  "--address here:0 groups", "--address here:1,here groups", "--address here:1, groups",
                  "--address here:1,unix: groups", "--help",
                  "watch a --for 86401", "watch a b", "--address here:65536 groups", "campaign", "campaign a",
                  "campaign a 03", "campaign a 3/0", "campaign A 3", "campaign a 3 4", "campaign a 3 --for 7"):
        ringctl.refuses(*words.split())
    ringctl.refuses("join", "a", " 1")
    ringctl.refuses("groups\n")
    ringctl.refuses(b"\xff")
    ringctl.refuses("campaign", "a 3", "")
    for port in (USUAL_PORT, USUAL_CAMPAIGNS):
        same("the usual address in the help", b"127.0.0.1:%d" % port in ringctl.run("--help")[2], True)


@check
def commands_are_answered_by_ringd(ringctl):
    with ringctl.serving() as address:
        for words, reply in (("create a chang", b"ok"), ("join a 3", b"ok"), ("join a 1/9", b"ok"), ("join a 2", b"ok"),
                             ("leave a 2", b"ok"), ("members a", b"members 3 1/9"), ("groups", b"groups a"),
                             ("terms a", b"terms"), ("start a", b"term 1")):
            ringctl.says(reply + b"\n", "--address", address, *words.split())
        until = time.monotonic() + PATIENCE
        while ringctl.run("--address", address, "who", "a", "3")[1] == b"undecided 1\n" and time.monotonic() < until:
            pass
        ringctl.says(b"leader 1 1/9\n", "--address", address, "who", "a", "3")
        ringctl.says(b"terms 1:1/9\n", "--address", address, "terms", "a")
        for words, word in (("create a chang", b"exists"), ("who a 4", b"not-in-term"), ("start b", b"no-group"),
                            ("watch b", b"no-group")):
            ringctl.fails(1, word + b"\n", "--address", address, *words.split())
        ringctl.says(b"groups a\nno bad-line\nmembers 3 1/9\n", "--address", address,
                     given=b"groups\ndrain a 5\n\nmembers a")


@check
def a_terminal_has_a_prompt(ringctl):
    """Before each line, and a line of its own at the end; refusals are printed like other replies."""
    with Fake(b"groups\nno bad-line\n") as service:
        ours, theirs = pty.openpty()
        with ended(ringctl.start("--address", service.address, stdin=theirs)) as run:
            os.close(theirs)
            os.write(ours, b"groups\n\nhello\n\x04")
            out, error = run.communicate(timeout=PATIENCE)
        os.close(ours)
        same("standard output", out, b"ring> groups\nring> ring> no bad-line\nring> \n")
        same("standard error and status", (error, run.returncode), (b"", 0))
        service.had(b"groups\nhello\n")


@check
def what_can_not_be_read_or_written_is_told(ringctl):
    with Fake(b"groups\n") as service, open("/dev/full", "wb") as full:
        words = ("--address", service.address)
        ringctl.fails(1, b"ringctl: cannot write standard output\n", *words, "groups", stdout=full)
        ringctl.fails(1, b"ringctl: cannot write standard output\n", *words, given=b"groups\n", stdout=full)
    with Fake(b"members 7\nleader 1 7\nterms 1:7\n") as service, open("/dev/full", "wb") as full:
        ringctl.fails(1, b"ringctl: cannot write standard output\n", "--address", service.address, "watch", "a",
                      stdout=full)
    with Fake(b"ok\n") as service, open("/dev/full", "wb") as full:
        ringctl.fails(1, b"ringctl: cannot write standard output\n", "--address", service.address, "campaign", "a", "7",
                      stdout=full)
    with Fake(b"groups\n") as service:
        folder = os.open(ringctl.folder, os.O_RDONLY)
        ringctl.fails(1, b"ringctl: cannot read standard input\n", "--address", service.address, stdin=folder)
        os.close(folder)
        ringctl.fails(1, b"ringctl: cannot read standard input\n", "--address", service.address,
                      given=b"groups\n\xff\n", out=b"groups\n")
