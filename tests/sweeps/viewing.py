"""Calls that go wrong in turn in `ringd run --http`: each answer is right, is a 503 or ends its connection.

A session makes a group, starts a term, and has a member leave. Meanwhile clients of HTTP ask for all paths, and poll:
see viewers.py. And each path that asks the table is refused memory for its question: it says that memory is lacking.
"""

from clients import HOWS, WORDS, WORKERS, Clients
from server import Lost, serving
from sweep import Bad
from table import Sweep, sweep_all
from viewers import ASKING, LACKING, Crowd

# A question asks for memory a second time if it is refused. A run may have some more or fewer growths than another one,
# so it is looked for near that place, and more than once.
TWICE, TRIES = 2, 6
NEAR = sorted(range(-30, 50), key=abs)


def second_answer(library, program, path, **wrong):
    """The second answer to a path, and how many growths went wrong before it."""
    with serving(library, program, WORDS, f"memory for {path}", workers=WORKERS, http=True, **wrong) as server:
        if not server.listens():
            raise Bad(f"memory for {path}: it doesn't listen")
        crowd = Crowd(server, "growth", "fail", b"chang")
        for line in (b"create a chang", b"join a 1", b"start a"):
            crowd.ask(line, rb"ok|term 1")
        crowd.settle()
        crowd.viewer.get(path)
        before = server.told()
        crowd.viewer.send(path)
        try:
            return crowd.viewer.response(), before
        except Lost:
            return None, before


def says_lack(library, program, path):
    """Some runs in which growths of a request are refused. In one of them its question is, and the answer says so."""
    for _ in range(TRIES):
        _, before = second_answer(library, program, path, growth=1, times=1 << 30, how="count")
        for number in (before + 1 + it for it in NEAR):
            if second_answer(library, program, path, growth=number, times=TWICE)[0] == (503, LACKING):
                return True
    raise Bad(f"{path} does not say that memory is lacking")


class Viewing(Clients):
    """Clients of HTTP, which look at one group."""

    name, given, hows = "HTTP", {"http": True}, {**HOWS, "open": (("fail", 1),)}

    def come(self, server, call, how, kind):
        return Crowd(server, call, how, kind)

    def talk(self, clients, number):
        clients.view()

    def compare_restarts(self, server, clients):
        server.start_anew()
        clients.compare_restart()

    def more(self, pool, library, program):
        sweep = Sweep("memory for a question of HTTP")
        sweep_all(pool, sweep, lambda path: says_lack(library, program, path), ASKING)
        yield sweep
