"""Growth refused in turn in ringchart and ringctl, the programs beside `ringd`.

A run that is refused memory does all that it does otherwise, or it ends with the status and the one line of a fault,
behind a first part of its output. ringctl asks a service of this script's own.
"""

import contextlib
import itertools
import re
import socketserver
import subprocess
import tempfile
import threading

from sweep import Bad, ROOT, run
from table import Sweep, sweep_all

CHART, CTL = (ROOT / "crates" / name / "out" / name for name in ("ringchart", "ringctl"))
SCHEDULE = (ROOT / "crates/ringchart/stdin").read_bytes()
SCHEDULE += b"cut a 1 left\nstart a => term 3\ncut a 2 left\ndrain a 9\n"
REPLIES = {b"groups": b"groups a", b"members a": b"members 7/9", b"who a 7": b"leader 1 7/9",
           b"terms a": b"terms 1:7/9", b"join a 7/9": b"ok\nundecided 1\nleader 1 7/9\nno term-limit"}
# How a run may end that was refused memory. A row of a schedule that says its reply is then answered otherwise.
FAULTS = {CHART: {1: rb"ringchart: (no memory|line [0-9]+ got another reply: .*\bno-memory)\n"},
          CTL: {1: rb"ringctl: (no memory|cannot (read standard input|write standard output))\n",
                3: rb"ringctl: no service answers\n"}}


class Case:
    """A run of a program, and how it ends where nothing is refused."""

    def __init__(self, program, *words, given=b""):
        self.program, self.command, self.given = program, [program, *words], given
        ran = subprocess.run(self.command, input=given, capture_output=True, timeout=60)
        self.usual = ran.returncode, ran.stdout, ran.stderr


class Answers(socketserver.StreamRequestHandler):
    """A service that knows few lines."""

    def handle(self):
        with contextlib.suppress(ConnectionError):
            for line in self.rfile:
                self.wfile.write(REPLIES.get(line.rstrip(b"\n"), b"no bad-line") + b"\n")


class Service(socketserver.ThreadingTCPServer):
    daemon_threads, request_queue_size = True, 64


@contextlib.contextmanager
def cases_of_chart():
    """Each way of drawing, and a request for help."""
    with tempfile.TemporaryDirectory() as folder:
        yield [Case(CHART, *words, given=SCHEDULE) for words in ((), ("--text",), ("--into", folder), ("--help",))]


@contextlib.contextmanager
def cases_of_ctl():
    """A command, one that is refused, a session, one look of a watch, a campaign to its end, and a request for help.
    Also a command to the second of two addresses."""
    with Service(("127.0.0.1", 0), Answers) as service:
        threading.Thread(target=service.serve_forever, daemon=True).start()
        place = f"127.0.0.1:{service.server_address[1]}"
        address = ("--address", place)
        yield [Case(CTL, *address, "groups"), Case(CTL, *address, "who", "a", "1"),
               Case(CTL, "--address", f"unix:/nowhere,{place}", "groups"),
               Case(CTL, *address, given=b"groups\n\nhello\nterms a"),
               Case(CTL, *address, "watch", "a", "--for", "0"), Case(CTL, *address, "campaign", "a", "7/9"),
               Case(CTL, "--help")]
        service.shutdown()


def refuse(library, case, growth):
    """One run in which this growth is refused: whether one was, or `None` where no such growth is made."""
    ran = run(library, case.command, case.given, growth=growth)
    ended = ran.status, ran.out, ran.err
    fault = FAULTS[case.program].get(ran.status)
    is_fault = fault and re.fullmatch(fault, ran.err) and case.usual[1].startswith(ran.out)
    if ended != case.usual and not (ran.told and is_fault):
        raise Bad(f"{case.command}, growth {growth}: status {ran.status}, {ran.out[-200:]!r}, {ran.err[-200:]!r}")
    return True if ran.told else None


def sweep_beside(pool, library):
    for program, cases in ((CHART, cases_of_chart), (CTL, cases_of_ctl)):
        sweep = Sweep(f"growth, {program.name}")
        with cases() as made:
            for case in made:
                sweep_all(pool, sweep, lambda n: refuse(library, case, n), itertools.count(1))
        yield sweep
