"""Checks of a service that writes a place before each reply, as `ringd run --places` does."""

from checking import listed
from ctl.client import NO_SERVICE
from ctl.fakes import Fake, text
from serving import ended, same

CHECKS, check = listed()
# The first place of a first and of a second life, the last one that there is, and that of a reply without one.
PLACES = [b"1", b"17592186044417", b"18446744073709551615", b"-"]
REPLIES = [b"ok", b"term 1", b"leader 1 7/3", b"undecided 1", b"members", b"members 3 1/9", b"terms 1:- 2:3",
           b"groups a", b"no bad-line"]


@check
def a_place_is_left_out(ringctl):
    """By a session, and by a command, also if it is refused."""
    for place in PLACES:
        with Fake(text(b"%s %s" % (place, reply) for reply in REPLIES)) as service:
            ringctl.says(text(REPLIES), "--address", service.address, given=b"groups\n" * len(REPLIES))
        with Fake(b"%s groups a\n" % place) as service:
            ringctl.says(b"groups a\n", "--address", service.address, "groups")
        with Fake(b"%s no no-group\n" % place) as service:
            ringctl.fails(1, b"no-group\n", "--address", service.address, "members", "a")


@check
def a_watch_leaves_places_out(ringctl):
    replies = [b"3 members 7", b"4 undecided 1", b"5 terms 1:-", b"8 leader 1 7", b"9 terms 1:7"]
    with Fake(text(replies)) as service:
        ringctl.says(b"term 1 started\nterm 1 leader 7\n", "--address", service.address, "watch", "a", "--for", "1")
        service.had(b"members a\nwho a 7\nterms a\nwho a 7\nterms a\n")


@check
def other_words_are_no_places(ringctl):
    """A word before a reply that is neither digits nor `-`, two places, and a place without a reply."""
    for front in (b"x", b"-1", b"1-", b"--", b"+1", b"1x", b"x1", b"1/2", b"", b"1 ", b"1 2", b"- -", b"1\t"):
        for reply in (b"ok", b"no no-group"):
            with Fake(b"%s %s\n" % (front, reply)) as service:
                ringctl.fails(3, NO_SERVICE, "--address", service.address, "groups")
    for line in (b"1", b"1 ", b"-", b"- ", b"1ok", b"-ok", b"- 1"):
        with Fake(line + b"\n") as service:
            ringctl.fails(3, NO_SERVICE, "--address", service.address, "groups")


@check
def ringd_is_asked_with_places(ringctl):
    """Commands, a refusal, a session with a bad line, which has no place, and a watch."""
    with ringctl.serving("--places") as address:
        for words, reply in (("create a lelann", b"ok"), ("join a 3/9", b"ok"), ("members a", b"members 3/9"),
                             ("groups", b"groups a"), ("start a", b"term 1")):
            ringctl.says(reply + b"\n", "--address", address, *words.split())
        ringctl.fails(1, b"no-group\n", "--address", address, "members", "b")
        ringctl.says(b"groups a\nno bad-line\nmembers 3/9\n", "--address", address,
                     given=b"groups\ndrain a 5\nmembers a\n")
        with ended(ringctl.start("--address", address, "watch", "a")) as run:
            same("the first line", run.stdout.readline(), b"term 1 started\n")
            same("the second line", run.stdout.readline(), b"term 1 leader 3/9\n")
