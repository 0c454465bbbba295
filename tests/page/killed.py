"""Clients that campaign are killed in front of the page, which shows the next leader."""

import contextlib
import os
import pathlib
import signal
import tempfile
import time

from campaigns.clients import Member
from page.look import Look
from page.scripts import CROWNED
from page.service import Service
from ports import free_port
from serving import PATIENCE, Differs

GROUP = "watched"
# The numbers in the order in which they lead: the first that joins, and then the greatest that is left.
NUMBERS = (3, 9, 7, 5)
MEMBERS = "return document.querySelectorAll('#members tr').length === arguments[0]"


def end(member):
    """Kills a client. Returns when."""
    began = time.monotonic()
    with contextlib.suppress(ProcessLookupError):
        os.kill(member.pid, signal.SIGKILL)
    return began


def join_all(window, place, last):
    """Has all campaign, the first one alone at first, and ends them with the check."""
    members = []
    for number in NUMBERS:
        members.append(Member(place, GROUP, number))
        last.callback(os.waitpid, members[-1].pid, 0)
        last.callback(end, members[-1])
        window.until(f"{len(members)} members", MEMBERS, len(members), within=PATIENCE)
        window.until("the first leader", CROWNED, f"{NUMBERS[0]}: leads", within=PATIENCE)
    return members


def kill_leaders(words, window, folder):
    """Kills one leader after another. Returns the look that saw each next one."""
    service = Service(words.program, folder, str(pathlib.Path(folder, "campaigns")))
    place = free_port()
    service.words += ["--campaign", str(place)]
    with contextlib.ExitStack() as last:
        last.callback(service.end)
        service.start()
        service.say(f"create {GROUP} chang")
        look = Look(words, service, window)
        window.open(service.site)
        window.run("location.hash = '#/' + arguments[0]", GROUP)
        members = join_all(window, place, last)
        for member, number in zip(members, NUMBERS[1:]):
            look.sees(f"{number} after a kill", end(member), CROWNED, f"{number}: leads")
        return look


def check_killed(words, window):
    """The page shows each next leader soon. If one is late, all is done once more, since a machine may be busy for a
    moment. Returns how soon each was shown."""
    for _ in range(2):
        with tempfile.TemporaryDirectory() as folder:
            look = kill_leaders(words, window, folder)
        if not look.is_late():
            return look.times()
    raise Differs(f"a leader was killed, and the next one was shown late, twice: {look.times()}")
