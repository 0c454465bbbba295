"""The place of an answer is that of its last question, in the history that sessions are told of with --places."""

from serving import Client, same
from web.asking import Web

GROUP, MEMBERS = "p", (1, 2)
# How many questions each path asks of a table with one group: the names of the groups; or the members and the terms of
# one, and what each member knows.
ABOUT = 2 + len(MEMBERS)
ASKED = {"/v1/groups": 1, f"/v1/groups/{GROUP}": ABOUT}


def placed(client, line, wanted):
    """The place of a line of the session, whose reply must be this one."""
    place, _, reply = client.ask(line).partition(b" ")
    same(f"the reply to {line}", reply, wanted)
    return int(place)


def expect_between(client, path, count, ask):
    """An answer has so many questions, and the place of the last of them. Nobody else asks anything."""
    before = placed(client, b"groups\n", b"groups p\n")
    seen = ask()
    after = placed(client, b"groups\n", b"groups p\n")
    same(f"the place of {path}, and of the next question", (seen, after), (before + count, before + count + 1))


def check_places(service, is_new):
    """Each path tells the place of its last question. The group is there already if the life is not a new one."""
    client, web = Client(service.port), Web(service.web)
    for line in (f"create {GROUP} chang\n", *(f"join {GROUP} {member}\n" for member in MEMBERS)) if is_new else ():
        placed(client, line.encode(), b"ok\n")
    for path, count in ASKED.items():
        expect_between(client, path, count, lambda path=path: web.told(path)["place"])
    expect_between(client, "/metrics", 1 + ABOUT, lambda: web.samples()["ringd_entries_total"])
    client.close()
    web.close()
