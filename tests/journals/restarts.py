"""Checks of what a restart finds: groups, members and terms, one by one."""

import signal
import time

from checking import listed
from journals.changes import text_of_changes, whole_text
from journals.lives import LONG, PAUSE, asked, client_of, living, say, until
from processes import resident
from serving import PATIENCE, Differs, same

CHECKS, check = listed()
# By how many bytes memory may grow.
MOST = 1 << 20


@check
def a_restart_finds_groups_members_and_leaders(program, file):
    with living(program, file) as life:
        say(life, b"create a chang\ncreate b peterson\njoin a 4\njoin a 1/9\njoin a 3\njoin a 2\nleave a 3\nstart a\n",
            b"ok\n" * 7 + b"term 1\n")
        say(life, b"join b 4\njoin b 1\njoin b 3\njoin b 2/7\nstart b\njoin a 5\nleave a 4\n",
            b"ok\n" * 4 + b"term 1\n" + b"ok\n" * 2)
        for line in (b"who a 4\n", b"who a 1\n", b"who a 2\n"):
            until(life, line, b"leader 1 1/9\n", b"undecided 1\n")
        until(life, b"who b 1\n", b"leader 1 4\n", b"undecided 1\n")
    with living(program, file) as life:
        say(life, b"who a 4\nwho a 1\nwho a 2\nwho b 1\n", b"leader 1 1/9\n" * 3 + b"leader 1 4\n")
        say(life, b"groups\nmembers a\nmembers b\nterms a\nterms b\n",
            b"groups a b\nmembers 1/9 2 5\nmembers 4 1 3 2/7\nterms 1:1/9\nterms 1:4\n")
        say(life, b"who a 5\ncreate a chang\njoin a 1\nleave a 4\n",
            b"no not-in-term\nno exists\nno member\nno not-member\n")


@check
def a_journal_with_each_kind_of_change_goes_on(program, file):
    changes = [b"create a chang", b"join a 3/9", b"join a 4", b"start a", b"know a 1 4 3/9", b"leave a 3",
               b"create b peterson", b"join b 1", b"start b", b"know b 1 1 1"]
    file.write_bytes(text_of_changes(changes))
    with living(program, file) as life:
        say(life, b"who a 4\nmembers a\nterms b\n", b"leader 1 3/9\nmembers 4\nterms 1:1\n")
        until(life, b"who a 3\n", b"leader 1 3/9\n", b"undecided 1\n")
        say(life, b"join a 5\njoin a 5\nstart a\n", b"ok\nno member\nterm 2\n")
    text = whole_text(file.read_bytes())
    wanted = text_of_changes([*changes, b"know a 1 3/9 3/9", b"join a 5", b"start a"], 2)
    same("the text of the journal", text[:len(wanted)], wanted)


@check
def a_term_goes_on_counting(program, file):
    with living(program, file) as life:
        say(life, b"create a lelann\njoin a 1\n" + b"start a\n" * 3, b"ok\nok\nterm 1\nterm 2\nterm 3\n")
        until(life, b"who a 1\n", b"leader 3 1\n", b"undecided 3\n")
    with living(program, file) as life:
        say(life, b"join a 2\nstart a\n", b"ok\nterm 4\n")
        until(life, b"who a 1\n", b"leader 4 2\n", b"undecided 4\n")
    with living(program, file) as life:
        say(life, b"leave a 1\nleave a 2\nstart a\nwho a 1\n", b"ok\nok\nno empty\nleader 4 2\n")
        with client_of(life) as client:
            terms = client.ask(b"terms a\n").split()
        same("the last of four terms", (len(terms), terms[0], terms[-1]), (5, b"terms", b"4:2"))


@check
def running_terms_are_decided_as_they_would_have_been(program, file):
    kinds = [(b"lelann", b"1/9"), (b"chang", b"1/9"), (b"hirschberg", b"1/9"), (b"peterson", b"3")]
    members = [b"4", b"1/9", b"3", b"2"]
    with living(program, file) as life:
        for kind, _ in kinds:
            joins = b"".join(b"join %s %s\n" % (kind, member) for member in members)
            say(life, b"create %s %s\n" % (kind, kind) + joins, b"ok\n" * 5)
        say(life, b"".join(b"start %s\n" % kind for kind, _ in kinds), b"term 1\n" * 4)
    for _ in range(2):
        with living(program, file) as life:
            for kind, leader in kinds:
                for member in (b"4", b"1", b"3", b"2"):
                    until(life, b"who %s %s\n" % (kind, member), b"leader 1 %s\n" % leader, b"undecided 1\n")


@check
def a_large_ring_is_decided_over_many_lives(program, file):
    members = b"".join(b"join a %d\n" % member for member in range(1, 257))
    with living(program, file) as life:
        say(life, b"create a lelann\n" + members + b"start a\n", b"ok\n" * 257 + b"term 1\n")
    known = set()
    for number in range(40):
        with living(program, file) as life, client_of(life) as client:
            if number == 39:
                until(life, b"who a 256\n", b"leader 1 256\n", b"undecided 1\n")
            replies = asked(client, [("a", ("who", member)) for member in range(1, 257)])
        told = {member for member, reply in enumerate(replies, 1) if reply == "leader 1 256"}
        same("what is neither decided nor undecided", {*replies} - {"leader 1 256", "undecided 1"}, set())
        same("members that knew the leader and know none", known - told, set())
        known |= told


@check
def many_terms_go_on_over_inboxes_of_one(program, file):
    names = ["g%d" % number for number in range(256)]
    made = [change for name in names for change in
            [b"create %s hirschberg" % name.encode(), *(b"join %s %d" % (name.encode(), it) for it in (3, 1, 2))]]
    file.write_bytes(text_of_changes(made + [b"start %s" % name.encode() for name in names]))
    for workers in (1, 2, 8):
        with living(program, file, workers=workers, inbox=1) as life, client_of(life) as client:
            patience, replies = time.monotonic() + LONG, []
            while set(replies) != {"leader %d 3" % (1 + (workers > 1))} and time.monotonic() < patience:
                time.sleep(PAUSE)
                replies = asked(client, [(name, ("who", it)) for name in names for it in (3, 1, 2)])
            same("members that know no leader", sum(not reply.startswith("leader ") for reply in replies), 0)
            if workers == 1:
                same("replies", asked(client, [(name, ("start",)) for name in names]), ["term 2"] * len(names))


@check
def limits_hold_over_lives(program, file):
    with living(program, file) as life:
        say(life, b"create a chang\njoin a 1\n" + b"start a\n" * 600, b"ok\nok\n" + terms_from(1, 600))
    with living(program, file) as life:
        say(life, b"start a\n" * 500, terms_from(601, 1000) + b"no term-limit\n" * 100)
        say(life, b"".join(b"create g%d chang\n" % number for number in range(100)), b"ok\n" * 100)
        say(life, b"".join(b"join a %d\n" % number for number in range(2, 101)), b"ok\n" * 99)
    with living(program, file) as life:
        say(life, b"start a\nstart g0\n", b"no term-limit\nno empty\n")
        say(life, b"".join(b"create h%d chang\n" % number for number in range(160)),
            b"ok\n" * 155 + b"no group-limit\n" * 5)
        say(life, b"".join(b"join a %d\n" % number for number in range(101, 261)),
            b"ok\n" * 156 + b"no ring-full\n" * 4)
    with living(program, file) as life:
        say(life, b"create i chang\njoin a 300\nstart a\n", b"no group-limit\nno ring-full\nno term-limit\n")


def terms_from(first, last):
    """Returns the replies to starts of these terms."""
    return b"".join(b"term %d\n" % term for term in range(first, last + 1))


@check
def changes_take_no_memory_for_good(program, file):
    lines, replies = b"join a 4294967295/65535\nleave a 4294967295\n" * 500, b"ok\n" * 1000
    with living(program, file) as life, client_of(life) as client:
        same("reply", client.ask(b"create a chang\n"), b"ok\n")
        seen = []
        for _ in range(60):
            client.send(lines)
            same("replies", b"".join(client.line() for _ in range(1000)), replies)
            seen.append(resident(life.run.pid))
    if seen[-1] - seen[19] > MOST:
        raise Differs(f"40000 changes have memory grow from {seen[19]} to {seen[-1]} bytes")


@check
def a_signal_ends_a_life_like_a_crash(program, file):
    with living(program, file, by=signal.SIGTERM) as life:
        say(life, b"create a chang\n", b"ok\n")
        life.run.send_signal(signal.SIGTERM)
        same("status", life.run.wait(PATIENCE), -signal.SIGTERM)
    with living(program, file) as life:
        say(life, b"groups\n", b"groups a\n")
