"""Checks of watches."""

import concurrent.futures
import signal
import time

from checking import listed, same_text
from ctl.fakes import USUAL_PORT, Fake, text
from serving import PATIENCE, Client, Differs, ended, same

CHECKS, check = listed()
# What a watch says of terms that come one after another: each start and each leader once, and of earlier terms nothing.
TERMS = [
    (b"1:-", b"term 1 started\n"), (b"1:-", b""), (b"1:7", b"term 1 leader 7\n"), (b"1:7", b""),
    (b"2:-", b"term 2 started\n"), (b"1:7", b""),
    (b"3:4294967295", b"term 3 started\nterm 3 leader 4294967295\n"), (b"2:5", b""),
    (b"4:7/65535", b"term 4 started\nterm 4 leader 7/65535\n"), (b"4:7/65535", b""),
    (b"1000:-", b"term 1000 started\n"),
]
NO_TERMS = [b"", b"1", b"1:", b":1", b"x:1", b"1:x", b"65536:1", b"1:0", b"1:7/", b"1:/7", b"1:7/x", b"1:7/65536"]


def is_watched(ringctl, terms, told):
    """At its second look a watch has to tell this of these terms; at the first there were none."""
    replies = [b"members 7", b"undecided 1", b"terms", b"leader 1 7", b" ".join([b"terms", *terms])]
    with Fake(text(replies)) as service:
        ringctl.says(told, "--address", service.address, "watch", "a", "--for", "1")
        service.had(b"members a\nwho a 7\nterms a\nwho a 7\nterms a\n")


@check
def each_thing_is_told_once(ringctl):
    """The first so many terms, for each number of them: so it is seen what each adds."""
    rows = [TERMS[:count] for count in range(1, len(TERMS) + 1)]
    with concurrent.futures.ThreadPoolExecutor(len(rows) + 1) as pool:
        runs = [pool.submit(is_watched, ringctl, [term for term, _ in row], b"".join(told for _, told in row))
                for row in rows]
        runs.append(pool.submit(is_watched, ringctl, [*NO_TERMS, b"1:-", *NO_TERMS], b"term 1 started\n"))
        for run in runs:
            run.result()


@check
def what_is_no_term_is_passed_over(ringctl):
    """The first look passes over as many terms as there are words behind the first of a reply but one. So a single term
    behind one word is told exactly where that word is a term too."""
    for word, told in [(b"1:-", b"term 7 started\n")] + [(word, b"") for word in NO_TERMS]:
        with Fake(b"members 7\nundecided 7\nterms %s 7:-\n" % word) as service:
            ringctl.says(told, "--address", service.address, "watch", "a", "--for", "0")


@check
def a_member_is_asked_by_its_number(ringctl):
    for word, number in ((b"7", b"7"), (b"7/9", b"7"), (b"4294967295/65535", b"4294967295")):
        with Fake(b"members %s\nno no-term\n" % word) as service:
            ringctl.says(b"", "--address", service.address, "watch", "a", "--for", "0")
            service.had(b"members a\nwho a %s\n" % number)


@check
def a_watch_goes_on_for_so_many_seconds(ringctl):
    """With --for it looks once more than that, a second apart, and without it on and on; here both at the usual
    address, and a group without members."""
    with Fake(b"members\n" * 3, USUAL_PORT) as service:
        began = time.monotonic()
        ringctl.says(b"", "watch", "a", "--for", "2")
        service.had(b"members a\n" * 3)
        if not 1.9 < time.monotonic() - began < PATIENCE:
            raise Differs("a watch for two seconds didn't take them")
    with Fake(b"members\n" * 100, USUAL_PORT) as service, ended(ringctl.start("watch", "a")) as run:
        until = time.monotonic() + PATIENCE
        while service.asked != b"members a\n" * 4 and time.monotonic() < until:
            same("status", run.poll(), None)
            time.sleep(0.05)
        same_text("what the service was asked", service.asked, b"members a\n" * 4)
        run.send_signal(signal.SIGTERM)
        same("status", run.wait(PATIENCE), -signal.SIGTERM)
        same("what it wrote", run.communicate(), (b"", b""))


@check
def a_watch_tells_what_ringd_does(ringctl):
    """The last term that there is first, then a term that is started meanwhile, and who leads each."""
    with ringctl.serving() as address:
        client = Client(int(address.rpartition(":")[2]))
        lines = (b"create a lelann", b"join a 3", b"start a", b"start a")
        same("replies", [client.ask(line + b"\n") for line in lines],
             [b"ok\n", b"ok\n", b"term 1\n", b"term 2\n"])
        with ended(ringctl.start("--address", address, "watch", "a")) as run:
            same("the first line", run.stdout.readline(), b"term 2 started\n")
            same("the second line", run.stdout.readline(), b"term 2 leader 3\n")
            same("replies", client.ask(b"join a 4/1\n") + client.ask(b"start a\n"), b"ok\nterm 3\n")
            same("the third line", run.stdout.readline(), b"term 3 started\n")
            same("the fourth line", run.stdout.readline(), b"term 3 leader 4/1\n")
        client.close()
