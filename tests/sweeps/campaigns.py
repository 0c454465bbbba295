"""Calls that go wrong in turn in `ringd run --campaign`: clients are told right lines, and who has gone is no member.

A session on the first port makes a group. One client campaigns in it and leads; two others come at once and follow it.
Then leaders go, one after another and each in another way, until nobody is there. Between two steps the session asks
for the members and the terms. In the end the group has no members.

Some of the growths are those of worker threads, which leave a term without a leader. Then candidates must be told that
this term is undecided, and be followed when they go.

With a journal, a restart that serves campaigns takes all members out.
"""

from candidates import Group
from clients import Clients


class Campaigns(Clients):
    """Clients that campaign in one group."""

    name, given = "campaigns", {"campaigns": True}

    def come(self, server, call, how, kind):
        return Group(server, call, how, kind)

    def talk(self, clients, number):
        clients.campaign(number)

    def hear_out(self, clients):
        clients.hear_out()

    def compare_restarts(self, server, clients):
        server.start_anew(campaigns=False)
        clients.compare_restart()
        server.start_anew(campaigns=True)
        clients.compare_empty()
