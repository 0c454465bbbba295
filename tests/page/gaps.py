"""The page if an answer does not come or is not wanted any more, and a change that keeps the numbers of members."""

import json
import time

from page.scripts import HIDDEN, IN_RING, IS, LEAVE_OUT, MISSING, NAMED, NONE, SAYS, STATUS, THERE
from serving import PATIENCE, Differs, same


def open_group(window, group):
    """Opens a group in the page that is there."""
    window.run("location.hash = '#/' + arguments[0]", group)
    window.until(f"the name of {group}", NAMED, group, within=PATIENCE)


def polls(look, sent, ended):
    """Notes the long polls since the last call by their numbers, and the requests that the page has given up."""
    for line in look.window.reports("performance"):
        event = json.loads(line["message"])["message"]
        words = event["params"]
        if event["method"] == "Network.requestWillBeSent" and "?after=" in words["request"]["url"]:
            sent[words["requestId"]] = words["request"]["url"]
        if event["method"] == "Network.loadingFailed" and words.get("canceled"):
            ended.add(words["requestId"])


def check_abandoned(look, group, other):
    """The long poll about a group ends when another group is opened."""
    open_group(look.window, group)
    sent, ended, until = {}, set(), time.monotonic() + PATIENCE
    while not any(f"/{group}?" in url for url in sent.values()):
        polls(look, sent, ended)
        if time.monotonic() > until:
            raise Differs(f"no long poll about {group}")
    look.window.run("location.hash = '#/' + arguments[0]", other)
    while not [number for number, url in sent.items() if f"/{group}?" in url][-1] in ended:
        polls(look, sent, ended)
        if time.monotonic() > until:
            raise Differs(f"the long poll about {group} goes on while {other} is open")


def check_unknown(look, group):
    """Before the first answer about the list the page says nothing of groups, also if none comes. Then the service
    answers, which the page says in a place that screen readers read out."""
    window = look.window
    window.block("*/v1/*")
    window.open(look.service.site)
    window.until("that nothing answers", IS, "gone", within=PATIENCE)
    open_group(window, group)
    same("texts for empty lists before the first answer", window.run(NONE), [])
    window.block()
    window.until("the service", IS, "well", within=PATIENCE)
    same("how the service is told", window.run(STATUS), ["status", "Connected"])
    window.until("the group", THERE, within=PATIENCE)


def check_missing(look, group):
    """A group that is missing in an answer and comes again is drawn anew, though it says the same as before."""
    window = look.window
    window.run(LEAVE_OUT, group)
    window.until("that the group is missing", MISSING, within=PATIENCE)
    same("whether its parts are hidden", window.run(HIDDEN, "parts"), True)
    window.run(LEAVE_OUT, "")
    window.until("the group again", THERE, within=PATIENCE)
    same("whether it is missing", window.run(MISSING), False)


def check_weight(look, group):
    """A member that leaves and joins again with another weight is shown with that."""
    window = look.window
    look.service.say(f"join {group} 71/2")
    window.until("a member", IN_RING, "71/2", within=PATIENCE)
    look.service.say(f"leave {group} 71", f"join {group} 71/3003")
    window.until("its weight in the ring", IN_RING, "71/3003", within=PATIENCE)
    same("its weight in the table", window.run(SAYS, "members", "3003"), True)
    same("whether the page has seen that", window.run(SAYS, "log", "71/3003"), True)


def check_gaps(look, group, other):
    """All of it. Nothing else changes meanwhile."""
    check_abandoned(look, group, other)
    check_unknown(look, group)
    check_missing(look, group)
    check_weight(look, group)
