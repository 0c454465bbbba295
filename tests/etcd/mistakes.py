"""Deliberate mistakes: stand-ins for etcd that undo one safety at a time. Each must be reported. Without a mistake nothing
may be reported.

Each is tried by one scene. A process tells changes, and is stopped. Another one takes over. The first one goes on with
a change that waits for it, before the other one's text counts or after that. Then the other one tells changes. What
clients were told must fit the journal.
"""

import base64
import contextlib
import signal
import socket
import tempfile
import threading

from etcd.judging import judge, told_by
from etcd.runs import LONG, STANDS_BY, Run
from etcd_standin import Keys, Standin
from identity import Identity
from journals.changes import line_of
from serving import Differs

NAME = "mistakes"
# For how many seconds a text is held back at most, and how long the first process has to tell a change meanwhile.
HELD, TELLS = 10, 2
# How many seconds after its answer a request is carried out that is answered too early.
LATE = 6
FIRST = [("a", ("create", "chang")), *(("a", ("join", Identity(0, it))) for it in (3, 1, 2)), ("a", ("members",))]
WAITING = [("a", ("join", Identity(0, 77))), ("a", ("leave", 3))]
THEN = [("a", ("leave", 2)), ("a", ("join", Identity(7, 9))), ("a", ("members",))]
SAID_DONE = {"succeeded": True, "responses": [{"response_put": {}}]}


class Sound(Keys):
    """Keys without a mistake. `is_late` says whether the first process goes on only when the other one serves. Else the
    text of the other one is held back.

    The lease is given to whoever asks for it, so that no process ends because another one claimed it. No safety may rest
    on the lease."""

    is_late = False

    def __init__(self):
        super().__init__()
        self.is_armed, self.arrived, self.gate = False, threading.Event(), threading.Event()

    def ask(self, path, asked):
        if not path.endswith("/txn"):
            return super().ask(path, asked)
        kind = kind_of(asked)
        if kind == "lease":
            return self.carry({**asked, "compare": []})
        if kind == "text" and self.is_armed:
            self.arrived.set()
            self.gate.wait(HELD)
        return self.answer(kind, asked)

    def answer(self, kind, asked):
        """Carries out a request with conditions, and returns its answer."""
        return self.carry(asked)

    def carry(self, asked):
        """Carries out a request with conditions as etcd does."""
        return super().ask("/v3/kv/txn", asked)

    def done(self):
        """An answer by which the conditions held."""
        return {**self.header(), **SAID_DONE}


def kind_of(asked):
    """What a request with conditions is: a claim or a renewal of the `lease`, a `text` that is to count, a `batch` of
    lines, a `mark` of a process that takes over, or `other`."""
    if any(base64.b64decode(it["key"]).endswith(b"/lease") for it in asked["compare"]):
        return "lease"
    ops = asked.get("success", [])
    if any("request_delete_range" in op for op in ops):
        return "text"
    values = [base64.b64decode(op["request_put"].get("value", "")) for op in ops if "request_put" in op]
    return {b"b": "batch", b"t": "mark"}.get(values[0][:1] if values else b"", "other")


def without(asked, target):
    """A request without its conditions of one kind."""
    return {**asked, "compare": [it for it in asked["compare"] if it["target"] != target]}


class PutsOverEntries(Sound):
    """An entry is put also if another one is there."""

    def answer(self, kind, asked):
        return self.carry(without(asked, "CREATE") if kind == "batch" else asked)


class PutsAfterAnyText(Sound):
    """An entry is put also if another text counts."""

    is_late = True

    def answer(self, kind, asked):
        return self.carry(without(asked, "VALUE") if kind == "batch" else asked)


class SwitchesOverEntries(Sound):
    """A text comes to count also if an entry came that it lacks, and processes that take over put no mark."""

    def answer(self, kind, asked):
        if kind == "mark":
            return self.done()
        return self.carry(without(asked, "CREATE") if kind == "text" else asked)


class PutsNoMark(Sound):
    """The entry by which a process takes over is not put, though the answer says so."""

    def answer(self, kind, asked):
        return self.done() if kind == "mark" else self.carry(asked)


class PutsNothing(Sound):
    """A batch is not put, though the answer says so."""

    def answer(self, kind, asked):
        return self.done() if kind == "batch" else self.carry(asked)


class AnswersEarly(Sound):
    """A batch is put some time after the answer."""

    def answer(self, kind, asked):
        if kind != "batch":
            return self.carry(asked)
        timer = threading.Timer(LATE, self.carry, [asked])
        timer.daemon = True
        timer.start()
        return self.done()


class AnswersDoneToRefused(Sound):
    """A batch that is refused is answered as if it were put."""

    def answer(self, kind, asked):
        said = self.carry(asked)
        return self.done() if kind == "batch" else said


class ReadsAnOldState(Sound):
    """What is read lacks the last entry when it is asked for first, as if a member answered that lags behind. No mistake:
    a process that takes over finds that an entry is there when it puts its mark, and reads again."""

    def __init__(self):
        super().__init__()
        self.lacked = set()

    def range(self, op):
        said = super().range(op)
        found = said["response_range"].get("kvs", [])
        last = found[-1]["key"] if "range_end" in op and found else ""
        if b"/e/" in base64.b64decode(last) and last not in self.lacked:
            self.lacked.add(last)
            said["response_range"]["kvs"] = found[:-1]
        return said


# How often the scene of a mistake is played at most, until it is reported.
SCENES = 8
SOUND = (Sound, ReadsAnOldState)
MISTAKES = (PutsOverEntries, PutsAfterAnyText, SwitchesOverEntries, PutsNoMark, PutsNothing, AnswersEarly,
            AnswersDoneToRefused)


def told_to(client, asked):
    """What is told to commands, as far as replies come within some seconds."""
    client.socket.settimeout(LONG)
    client.send(b"".join(line_of(*it) for it in asked))
    return heard(client, asked)


def heard(client, asked):
    """The replies that come to commands that were sent."""
    pairs = []
    with contextlib.suppress(ConnectionError, socket.timeout):
        for it in asked:
            line = client.line().decode()
            if not line.endswith("\n"):
                break
            pairs.append((it, line[:-1]))
    return pairs


def goes_on(first, client):
    """The first process goes on, and may tell the change that waits for it."""
    first.run.send_signal(signal.SIGCONT)
    client.socket.settimeout(TELLS)
    return heard(client, WAITING)


def begun(ends, program, folder, journal):
    """A run, which is killed with the scene."""
    run = Run(program, folder, journal, "--places")
    ends.callback(run.end)
    return run


def scene(program, folder, keys):
    """Plays the scene over these keys. The answer is what each client was told."""
    journal = f"etcd://{Standin(keys).place()}/{NAME}"
    with contextlib.ExitStack() as ends:
        first = begun(ends, program, folder, journal)
        first.wait_until_it_listens()
        second = begun(ends, program, folder, journal)
        second.wait(STANDS_BY)
        client = ends.enter_context(contextlib.closing(first.client()))
        told = told_to(client, FIRST)
        keys.is_armed = not keys.is_late
        first.run.send_signal(signal.SIGSTOP)
        client.send(b"".join(line_of(*it) for it in WAITING))
        if keys.is_armed and not keys.arrived.wait(LONG):
            raise TimeoutError("the second process does not begin its text")
        if keys.is_armed:
            told += goes_on(first, client)
            keys.gate.set()
        second.wait_until_it_listens()
        if keys.is_late:
            told += goes_on(first, client)
        with contextlib.closing(second.client()) as other:
            return told, told_to(other, THEN)


def report(program, kind):
    """What is reported of keys of this kind; None if nothing is."""
    keys = kind()
    with tempfile.TemporaryDirectory() as folder:
        told = scene(program, folder, keys)
    if len(told[0]) < len(FIRST):
        raise TimeoutError(f"{kind.__name__}: {len(told[0])} replies came before the first process was stopped")
    try:
        judge(NAME, list(keys.events), [it for some in told for it in told_by(some)])
    except Differs as why:
        return str(why)
    return None


def see_all(program):
    """Sees that each mistake is reported, and nothing else. On a busy machine a scene may end before its mistake is told to
    a client. So the scene of a mistake is played again until the mistake is reported."""
    for kind in (*SOUND, *MISTAKES):
        scenes = (report(program, kind) for _ in range(1 if kind in SOUND else SCENES))
        why = next(filter(None, scenes), None)
        print(f"mistakes: {kind.__name__}: {why or 'nothing is reported'}", flush=True)
        if (why is None) != (kind in SOUND):
            raise Differs(f"{kind.__name__}: {why or 'this mistake is not reported'}")
    return f"{len(MISTAKES)} mistakes are reported"
