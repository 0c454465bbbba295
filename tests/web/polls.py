"""Long polls: when they are answered, and with which places."""

import os
import signal
import statistics
import threading
import time

from serving import PATIENCE, Client, Differs, same
from web.asking import Web

# The wait of a poll without news, and by how much it may be longer, the fastest of so many as TRIES.
QUIET, MORE = 1, 0.5
# The seconds for which the program stands still, and the wait of a poll meanwhile.
STILL, WAIT = 1, 2
# For how many seconds the looks of a poll are counted.
LOOKS = 0.2
# After how many seconds a poll has heard of a change, half of the times.
SOON = 0.05
# Within how many seconds a poll that need not wait is answered, the fastest of so many.
AT_ONCE, TRIES = 1, 3
# How many answers about groups the service remembers.
REMEMBERED = 1024


def timed(web, path):
    """The JSON of a path, and the seconds until it came."""
    begun = time.monotonic()
    return web.told(path), time.monotonic() - begun


def check_waits(port, wait, meanwhile=lambda: None):
    """A poll without news is answered after its wait: never sooner, and soon after it at one try at least."""
    web, found = Web(port), []
    for _ in range(TRIES):
        place = web.told("/v1/groups/a")["place"]
        meanwhile()
        found.append(timed(web, f"/v1/groups/a?wait={wait}&after={place}")[1])
    web.close()
    if not wait <= min(found) < wait + MORE:
        raise Differs(f"polls without news took {found} s, and not {wait}")


def stand_still(pid):
    """Stops a process for some time."""
    os.kill(pid, signal.SIGSTOP)
    time.sleep(STILL)
    os.kill(pid, signal.SIGCONT)


def check_quiet(port, pid):
    """A poll without news lasts as long as it asked for. A program that stood still meanwhile makes up for no looks."""
    check_waits(port, QUIET)
    check_waits(port, WAIT, lambda: threading.Timer(STILL / 4, stand_still, (pid,)).start())


def answered_at_once(web, query, what, group="a"):
    """The answer to a poll that need not wait."""
    found = [timed(web, f"/v1/groups/{group}?{query}") for _ in range(TRIES)]
    if min(took for _, took in found) > AT_ONCE:
        raise Differs(f"a poll took {found} for {query}, {what}")
    return found[-1][0]


def check_at_once(port, twins):
    """A poll is answered at once if it has no wait, or if no answer about its group that is remembered has its place.
    The answers about the twins say the same of each."""
    web = Web(port)
    place, other = web.told("/v1/groups/a")["place"], web.told("/v1/groups/b")["place"]
    for query in ("wait=0", "", "wait=1s", "wait=-1", "wait="):
        answered_at_once(web, f"after={place}&{query}", "without a wait")
    names = web.told("/v1/groups")["place"]
    for after in ("", "after=", "after=x", "after=0", f"after={place}x", f"after={1 << 40}", f"after={1 << 70}",
                  f"after={place - 1}", f"after={other}", f"after={names}"):
        answered_at_once(web, f"{after}&wait=60", "after no answer about the group")
    one, two = twins
    place_of_one = web.told(f"/v1/groups/{one}")["place"]
    answered_at_once(web, f"after={place_of_one}&wait=60", f"after an answer about {one}", two)
    for _ in range(REMEMBERED):
        web.told("/v1/groups/b")
    answered_at_once(web, f"after={place}&wait=60", "after an answer that is forgotten")
    web.close()


def check_missed(port, sessions):
    """A poll hears at once of a change since the answer of its place, whatever was answered meanwhile."""
    web, other, client = Web(port), Web(port), Client(sessions)
    place = web.told("/v1/groups/a")["place"]
    for line, count in ((b"join a 99\n", 1), (b"leave a 99\n", 0)):
        same("a change", client.ask(line), b"ok\n")
        other.told("/v1/groups/a")
        news = answered_at_once(web, f"after={place}&wait=60", f"after {line}")
        same("how often a member is there", [it["number"] for it in news["members"]].count(99), count)
        place = news["place"]
    for it in (web, other, client):
        it.close()


def asked_since(web, seconds):
    """How many places there are between two questions about a group with this pause. Each question of anyone has one."""
    first = web.told("/v1/groups/a")["place"]
    time.sleep(seconds)
    return web.told("/v1/groups/a")["place"] - first


def await_looks(web, own):
    """Waits until a poll looks at its group, which it does many times a second. Without it there are so many places."""
    until = time.monotonic() + PATIENCE
    while asked_since(web, LOOKS) <= own:
        if time.monotonic() > until:
            raise Differs("a poll does not look at its group")


def lateness(port, sessions, other, line):
    """What a poll of the group hears of a change, and how many seconds after it."""
    heard, own = [], asked_since(other, 0)

    def poll():
        web = Web(port)
        place = web.told("/v1/groups/a")["place"]
        ready.set()
        heard.append((web.told(f"/v1/groups/a?after={place}&wait=30"), time.monotonic()))
        web.close()

    ready, thread = threading.Event(), threading.Thread(target=poll)
    thread.start()
    same("whether a client of a poll is answered", ready.wait(PATIENCE), True)
    await_looks(other, own)
    client = Client(sessions)
    same("a change", client.ask(line), b"ok\n")
    changed = time.monotonic()
    thread.join(PATIENCE)
    client.close()
    if not heard:
        raise Differs(f"a poll did not hear of {line}")
    return heard[0][0], heard[0][1] - changed


def check_news(port, sessions, numbers):
    """Polls hear of members that join and of these as they leave, half of the times soon. Returns how late, in seconds."""
    late, other = [], Web(port)
    for number in numbers:
        for line, is_there in ((b"join a %d/3\n", True), (b"leave a %d\n", False)):
            picture, took = lateness(port, sessions, other, line % number)
            same(f"whether {number} is a member", {"number": number, "weight": 3} in picture["members"], is_there)
            late.append(took)
    other.close()
    if (middle := statistics.median(late)) > SOON:
        raise Differs(f"polls heard of changes after {[round(it, 3) for it in late]} s")
    return middle
