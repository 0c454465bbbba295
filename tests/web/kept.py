"""What HTTP shows with a journal: a term once its start is kept, how long syncs took, and the places of each life after
those before."""

import os
import pathlib
import subprocess
import time

from serving import PATIENCE, Client, Differs, same
from web.asking import JSON, Web

SLOW = pathlib.Path(__file__).resolve().parents[2] / "bench" / "slow.c"
# How many seconds each sync of a slow disk takes.
LONG = 1.5
# The places of a life begin at a multiple of this number.
LIFE = 1 << 44
GROUP = "/v1/groups/b"


def life_of(service):
    """In which life of the journal the places are, counted from 0."""
    web = Web(service.web)
    life = web.told("/v1/groups")["place"] // LIFE
    web.close()
    return life


def slow_disk(folder):
    """The environment of a program whose syncs take long."""
    library = pathlib.Path(folder, "slow.so")
    subprocess.run(["cc", "-shared", "-fPIC", "-O2", "-o", library, SLOW], check=True)
    return {**os.environ, "LD_PRELOAD": str(library), "SLOW_MICROSECONDS": str(int(LONG * 1e6))}


def shows_in_json(web, number):
    """Whether the JSON of the group has this term."""
    return f'"term":{number}}}'.encode() in web.body(GROUP, JSON)


def shows_in_picture(web, number):
    """Whether the picture is of this term."""
    return f"term {number} of group b".encode() in web.body(f"{GROUP}/election.svg", "image/svg+xml")


def check_kept(service):
    """No answer shows a term before its start is on a slow disk."""
    web = Web(service.web)
    for is_shown in (shows_in_json, shows_in_picture):
        number = len(web.told(GROUP)["terms"]) + 1
        client, began = Client(service.port), time.monotonic()
        client.send(b"start b\n")
        while not is_shown(web, number):
            if time.monotonic() > began + PATIENCE:
                raise Differs(f"{is_shown.__name__}: term {number} is not shown")
        took = time.monotonic() - began
        if took < LONG:
            raise Differs(f"{is_shown.__name__}: term {number} is shown after {took:.2f} s, and a sync takes {LONG} s")
        same("the reply to a start", client.line(), b"term %d\n" % number)
        client.close()
    check_time(web.samples())
    web.close()


def check_time(samples):
    """The metrics say how long the syncs of a slow disk took."""
    took, count = samples["ringd_journal_sync_seconds_total"], samples["ringd_journal_syncs_total"]
    if not count or not LONG <= took / count < LONG + PATIENCE:
        raise Differs(f"{count} syncs took {took} s, and each takes {LONG} s")
