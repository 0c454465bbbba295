"""Checks of campaigns: what is printed, which signs of life are sent, and what ends one."""

import signal
import time

from checking import listed, same_text
from ctl.client import NO_SERVICE
from ctl.fakes import USUAL_CAMPAIGNS, Fake, Pieces, text
from serving import PATIENCE, Differs, ended, same

CHECKS, check = listed()
KNOWN = [b"undecided 1", b"leader 1 7/3", b"no not-in-term", b"no no-term", b"leader 1000 4294967295"]


@check
def a_campaign_prints_what_comes(ringctl):
    """Then its service is gone. After each reply a sign of life is sent."""
    for known in ([], KNOWN[:1], KNOWN, KNOWN[::-1]):
        replies = text([b"ok", *known])
        with Fake(replies) as service:
            ringctl.fails(3, NO_SERVICE, "--address", service.address, "campaign", "a", "7/3", out=replies)
            service.had(b"join a 7/3\n" + b"\n" * (1 + len(known)))


@check
def a_refusal_ends_a_campaign(ringctl):
    """The refusal of the join, before which no sign of life is sent, and any that comes later."""
    for word in (b"no-group", b"member", b"ring-full", b"bad-line", b"no-term", b"not-in-term", b"term-limit"):
        with Fake(b"no %s\n" % word, how="stay") as service:
            ringctl.fails(1, word + b"\n", "--address", service.address, "campaign", "a", "7")
            service.had(b"join a 7\n")
        if word in (b"no-term", b"not-in-term"):
            continue
        with Fake(b"ok\nundecided 1\nno %s\n" % word, how="stay") as service:
            ringctl.fails(1, word + b"\n", "--address", service.address, "campaign", "a", "7", out=b"ok\nundecided 1\n")


@check
def what_is_no_news_ends_a_campaign(ringctl):
    """Replies to other commands, what is no reply, and half a line."""
    for front, lines in ((b"", (b"undecided 1\n", b"leader 1 7\n", b"term 1\n", b"ok ok\n", b"okay\n", b"\n", b"ok")),
                         (b"ok\n", (b"ok\n", b"term 1\n", b"groups\n", b"leader\n", b"undecided\n", b"leader 1 7"))):
        for line in lines:
            with Fake(front + line) as service:
                ringctl.fails(3, NO_SERVICE, "--address", service.address, "campaign", "a", "7", out=front)


@check
def a_campaign_gives_signs_of_life(ringctl):
    """One after each of the two replies, and then each half second, at the usual address of campaigns. Each line is
    printed at once. A busy machine may see more signs, but no sooner."""
    with Fake(b"ok\nleader 1 7\n", USUAL_CAMPAIGNS, how="stay") as service:
        began = time.monotonic()
        with ended(ringctl.start("campaign", "a", "7")) as run:
            same("the lines", [run.stdout.readline(), run.stdout.readline()], [b"ok\n", b"leader 1 7\n"])
            until = time.monotonic() + PATIENCE
            while len(service.asked) < len(b"join a 7\n\n\n\n\n\n") and time.monotonic() < until:
                time.sleep(0.05)
            run.send_signal(signal.SIGTERM)
            same("status", run.wait(PATIENCE), -signal.SIGTERM)
            same("what it wrote", run.communicate(), (b"", b""))
            took = time.monotonic() - began
        same("whether the campaign has ended", service.has_ended.wait(PATIENCE), True)
        signs = max(5, service.asked.count(b"\n") - 1)
        same_text("what the service was asked", service.asked, b"join a 7\n" + b"\n" * signs)
        if took < 0.48 * (signs - 2):
            raise Differs(f"{signs} signs of life came within {took:.2f} seconds")


@check
def a_campaign_waits_for_the_rest_of_a_line(ringctl):
    """Each piece comes after the time for which a read waits."""
    with Pieces([b"o", b"k\nlead", b"er 1 ", b"7\n"]) as service:
        ringctl.fails(3, NO_SERVICE, "--address", service.address, "campaign", "a", "7", out=b"ok\nleader 1 7\n")
