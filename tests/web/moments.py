"""An answer about a group is one moment's: no change of another client is between its parts."""

import concurrent.futures
import time

from serving import PATIENCE, Client, Differs, same
from web.asking import Web

# A ring of so many members is long on its way to a leader, so many looks come in the middle of an election. Before each
# start one more member joins, and a group has at most 256.
MEMBERS, STARTS, LOOKS = 56, 100, 20
GROUP = "moment"


def make_group(client):
    """Makes the group."""
    same("create", client.ask(f"create {GROUP} chang\n".encode()), b"ok\n")
    for number in range(1, MEMBERS + 1):
        same("join", client.ask(f"join {GROUP} {number}\n".encode()), b"ok\n")


def start_all(client):
    """Starts one term after another, each once all have heard of the leader. The member before it hears last."""
    for number in range(1, STARTS + 1):
        same("join", client.ask(f"join {GROUP} {MEMBERS + number}\n".encode()), b"ok\n")
        same("start", client.ask(f"start {GROUP}\n".encode()), b"term %d\n" % number)
        until = time.monotonic() + PATIENCE
        while (told := client.ask(f"who {GROUP} {MEMBERS + number - 1}\n".encode())).startswith(b"undecided"):
            if time.monotonic() > until:
                raise Differs(f"term {number} is undecided: {told}")


def look(picture):
    """Whoever is informed has heard of the leader of the last term, so that term has one. At each moment as many have
    joined as terms were started, or one more."""
    if picture["informed"] and picture["terms"][-1]["leader"] is None:
        raise Differs(f"an answer is of two moments: {len(picture['informed'])} know a leader, and there is none")
    joined, started = len(picture["members"]) - MEMBERS, len(picture["terms"])
    if joined - started not in (0, 1):
        raise Differs(f"an answer is of two moments: {joined} joined, and {started} terms were started")


def check_moment(port, web_port):
    """Looks at a group while its terms are started."""
    client, web, looks = Client(port), Web(web_port), 0
    make_group(client)
    with concurrent.futures.ThreadPoolExecutor(1) as pool:
        started = pool.submit(start_all, client)
        while not started.done() or looks < LOOKS:
            look(web.told(f"/v1/groups/{GROUP}"))
            looks += 1
        started.result()
    client.close()
    web.close()
