"""Checks of `ringd run` over three members of etcd: lives, a standby that takes over, and journals that are refused."""

import contextlib
import pathlib
import signal
import socket
import tempfile
import time

import etcd_members
from checking import listed
from etcd.gateway import Gateway, coded
from etcd.judging import judge, told_by
from etcd.log import whole_text
from etcd.runs import FAILED, LONG, STANDS_BY, TAKEN_OVER, Run, see_end
from etcd_standin import Keys, Standin
from histories.commands import KINDS
from identity import Identity
from journals.changes import history_of, line_of, text_of_changes
from journals.lives import compare, wait_until_decided
from ports import free_port
from serving import Differs, same, short

# Within how many seconds a standby serves after the first process ended.
SOON = 3
# How long a start may look for members of etcd, in seconds.
VERY_LONG = 240
# How many members join and leave in a long journal, and how many seconds one range of its keys takes.
LONG_JOURNAL, PAGE = 3000, 0.1
# How often the lease is renewed at least while that journal is taken over, and in how many seconds once.
RENEWALS, RENEWED = 3, 1.3
RING = (Identity(0, 3), Identity(9, 1), Identity(0, 2))
CHECKS, check = listed()


class Room:
    """The program, a folder, the members of etcd, the name of a journal, and how many seconds a takeover may take."""

    def __init__(self, program, folder, members, within=SOON):
        self.program, self.folder, self.members, self.within = program, folder, members, within
        self.name, self.runs = pathlib.Path(folder).name.replace("_", "-"), []
        self.gateway = Gateway(members.places())

    def run(self, *words, members=None, name=None):
        """A run over the journal, which is killed with the room."""
        journal = f"etcd://{members or self.members.places(len(self.runs) % 3)}/{name or self.name}"
        self.runs.append(Run(self.program, self.folder, journal, *words))
        return self.runs[-1]

    def life(self, *words):
        """A run that listens."""
        run = self.run(*words)
        run.wait_until_it_listens()
        return run

    def history(self):
        """The history of the journal that is in etcd now."""
        top = f"ring/{self.name}/"
        return history_of(whole_text(self.name, self.gateway.keys(top)))

    def see_told(self, pairs):
        """Sees that what was told, with its places, fits the journal."""
        return judge(self.name, self.gateway.events(f"ring/{self.name}/"), [it for some in pairs for it in told_by(some)])

    def close(self):
        """Kills all runs."""
        for run in self.runs:
            run.run.kill()


def ask_all(client, asked):
    """Asks one command after another. The answer is each with the line of its reply."""
    client.send(b"".join(line_of(name, command) for name, command in asked))
    pairs = [(it, client.line().decode().rstrip("\n")) for it in asked]
    if not all(line for _, line in pairs):
        raise Differs(f"of {len(pairs)} lines some get no reply")
    return pairs


def some_commands(word):
    """Commands about groups whose names end with a word."""
    asked = []
    for kind in KINDS:
        name = f"{kind}-{word}"
        asked += [(name, ("create", kind)), *((name, ("join", it)) for it in RING), (name, ("start",)),
                  (name, ("who", 1)), (name, ("leave", 2)), (name, ("members",)), (name, ("terms",))]
    return [*asked, ("", ("groups",))]


def decided(room, client):
    """Waits until the last terms are decided. The answer is the history."""
    history = room.history()
    wait_until_decided(client, dict(history.last_groups()))
    return room.history()


def replies_without_places(client):
    """A function that asks without keeping places."""
    return lambda questions: [line for _, line in ask_all(client, questions)]


@check
def lives_go_on(room):
    """Each life has the groups, terms, leaders and members of the lives before, which were killed."""
    for word in "abc":
        run = room.life()
        with contextlib.closing(run.client()) as client:
            history = room.history()
            compare(replies_without_places(client), history, history.count)
            ask_all(client, some_commands(word))
            history = decided(room, client)
            compare(replies_without_places(client), history, history.count)
        run.kill()
        same("what it wrote", run.faults(), [])
    same("groups", len(room.history().last_groups()), 3 * len(KINDS))


@check
def places_fit_one_history(room):
    """The places of all lives are one history, which the journal explains."""
    told = []
    for word in "abc":
        run = room.life("--places")
        with contextlib.closing(run.client()) as client:
            told.append(ask_all(client, some_commands(word)))
            told[-1] += ask_all(client, [(f"{kind}-a", ("terms",)) for kind in KINDS])
        run.kill()
    room.see_told(told)


@check
def a_standby_takes_over(room):
    """The second process stands by while the first one serves, and serves soon after the first one was killed."""
    first = room.life("--places")
    second = room.run("--places")
    second.wait(STANDS_BY)
    with contextlib.closing(first.client()) as client:
        told = [ask_all(client, some_commands("a"))]
    time.sleep(SOON)
    if second.listens() or second.has_ended():
        raise Differs(f"beside a process that serves, the second one says {short(second.texts())}")
    first.kill()
    killed = time.monotonic()
    second.wait_until_it_listens()
    with contextlib.closing(second.client()) as client:
        told.append(ask_all(client, some_commands("b")))
    seconds = time.monotonic() - killed
    room.see_told(told)
    if seconds > room.within:
        raise Differs(f"the standby served {seconds:.1f} seconds after the first process was killed")
    return f"it served after {seconds:.1f} s"


@check
def a_stopped_process_is_superseded(room):
    """A process that was stopped while another took over tells no change when it goes on, and ends."""
    first = room.life("--places")
    second = room.run("--places")
    second.wait(STANDS_BY)
    client = first.client()
    told = [ask_all(client, some_commands("a"))]
    first.run.send_signal(signal.SIGSTOP)
    client.send(line_of("chang-a", ("join", Identity(0, 77))))
    second.wait_until_it_listens()
    with contextlib.closing(second.client()) as other:
        told.append(ask_all(other, some_commands("b")))
    first.run.send_signal(signal.SIGCONT)
    with contextlib.suppress(ConnectionError):
        same("the reply of a process that was superseded", client.line(), b"")
    client.close()
    see_end(first, TAKEN_OVER)
    with contextlib.closing(second.client()) as other:
        told.append(ask_all(other, [("chang-a", ("members",))]))
    room.see_told([told[0], told[1] + told[2]])


@check
def no_member_answers(room):
    """If no member of etcd answers, a start ends."""
    run = room.run(members=",".join(f"127.0.0.1:{free_port()}" for _ in range(3)))
    status, texts = run.wait_for_end(VERY_LONG)
    same("the end", (status, texts), (1, ["ringd: journal unanswered"]))


@check
def a_majority_is_waited_for(room):
    """While two of three members are stopped no change is told; when they go on, it is."""
    run = room.life("--places")
    with contextlib.closing(run.client()) as client:
        told = ask_all(client, some_commands("a"))
        room.members.stop(0, 1)
        try:
            asked = [("chang-a", ("join", Identity(0, 88))), ("chang-a", ("members",))]
            client.send(b"".join(line_of(*it) for it in asked))
            client.socket.settimeout(4)
            with contextlib.suppress(socket.timeout):
                raise Differs(f"without a majority of etcd {short(client.line())} was told")
        finally:
            room.members.go_on(0, 1)
        client.socket.settimeout(LONG)
        told += [(it, client.line().decode().rstrip("\n")) for it in asked]
    room.see_told([told])


@check
def a_service_without_members_ends(room):
    """If all members end, the service ends, and nothing is told."""
    with tempfile.TemporaryDirectory() as folder:
        members = etcd_members.Members(folder)
        try:
            run = room.run(members=members.places())
            run.wait_until_it_listens()
            with contextlib.closing(run.client()) as client:
                ask_all(client, some_commands("a"))
                for each in range(3):
                    members.kill(each)
                client.send(line_of("chang-a", ("join", Identity(0, 99))))
                client.socket.settimeout(LONG)
                with contextlib.suppress(ConnectionError):
                    same("the reply without members", client.line(), b"")
            see_end(run, *FAILED)
        finally:
            members.end()


class SlowKeys(Keys):
    """Keys that are read slowly: each range of them takes some time. `claimed` has the moments when the lease was put."""

    def __init__(self, name):
        super().__init__()
        self.top, self.claimed = f"ring/{name}/", []

    def ask(self, path, asked):
        if "range_end" in asked:
            time.sleep(PAGE)
        return super().ask(path, asked)

    def note(self, key, value):
        super().note(key, value)
        if self.events[-1][1] == self.top + "lease":
            self.claimed.append(time.monotonic())

    def begin(self, name, value):
        """Puts a value at a key of the journal."""
        self.ask("/v3/kv/put", {"key": coded(self.top + name), "value": coded(value)})


def long_journal(keys):
    """Puts a long journal into these keys: members join and leave, with an entry for each two changes."""
    changes = [b"create a chang"]
    for member in range(1, LONG_JOURNAL + 1):
        changes += [b"join a %d" % member, b"leave a %d" % member]
    lines, top = text_of_changes(changes).splitlines(True), f"t/{5:020}"
    keys.begin(f"{top}/p/{0:020}", b"".join(lines[:2]))
    for number, at in enumerate(range(2, len(lines), 2), 1):
        keys.begin(f"{top}/e/{number:020}", b"b" + b"".join(lines[at:at + 2]))
    keys.begin("base", b"ringd 1 5 1")


@check
def the_lease_is_renewed_meanwhile(room):
    """While a process takes over a long journal, it renews its lease: otherwise a standby would take it over from it."""
    keys = SlowKeys(room.name)
    long_journal(keys)
    run = room.run(members=Standin(keys).place())
    listened = run.wait_until_it_listens()
    moments = [*(it for it in keys.claimed if it < listened), listened]
    renewals, seconds = len(moments) - 2, listened - run.began
    longest = max((later - earlier for earlier, later in zip(moments, moments[1:])), default=seconds)
    if renewals < RENEWALS or longest > RENEWED * room.within / SOON:
        raise Differs(f"in {seconds:.1f} s the lease was renewed {renewals} times, and once not for {longest:.1f} s")
    return f"{renewals} renewals in {seconds:.1f} s, at most {longest:.1f} s apart"


CHANGES = [b"create a chang", b"join a 3", b"join a 1", b"start a"]


def a_journal(room, name):
    """Puts a journal into etcd: a text of two pieces, and three entries. The answer is its keys."""
    top, text = f"ring/{name}/", text_of_changes(CHANGES)
    lines = text.splitlines(True)
    keys = {f"{top}t/{5:020}/p/{0:020}": lines[0][:7], f"{top}t/{5:020}/p/{1:020}": lines[0][7:] + lines[1]}
    keys |= {f"{top}t/{5:020}/e/{number:020}": b"b" + line for number, line in enumerate(lines[2:], 1)}
    keys[top + "base"] = b"ringd 1 5 2"
    for key, value in keys.items():
        room.gateway.put(key, value)
    return keys


def damages(keys):
    """What is done to the keys, each as a name, a key, and its new value or None."""
    pieces, entries, base = list(keys)[:2], list(keys)[2:5], list(keys)[5]
    yield "nothing", base, keys[base]
    for value in (b"", b"ringd", b"ringd 2 5 2", b"ringd 1 05 2", b"ringd 1 5 3", b"ringd 1 6 1", b"\xff\0"):
        yield f"base-{len(value)}-{value[6:].hex()}", base, value
    yield "base-missing", base, None
    yield "piece-missing", pieces[0], None
    yield "piece-other", pieces[1], keys[pieces[1]][:-3] + b"0" + keys[pieces[1]][-2:]
    yield "entry-missing", entries[1], None
    yield "entry-empty", entries[1], b""
    yield "entry-of-another-kind", entries[1], b"x" + keys[entries[1]][1:]
    yield "entry-other", entries[1], keys[entries[1]].replace(b"1", b"2", 1)
    yield "entry-twice", entries[2], keys[entries[1]]
    yield "entry-torn", entries[2], keys[entries[2]][:-1]
    yield "entry-zero", entries[2], keys[entries[2]].replace(b" ", b"\0", 1)
    yield "entry-zeros-behind", entries[2], keys[entries[2]] + b"\0"
    yield "piece-zero", pieces[1], keys[pieces[1]][:-3] + b"\0" + keys[pieces[1]][-2:]


@check
def damaged_journals_are_refused(room):
    """A journal of which a key is damaged is refused, with one line."""
    runs = []
    for place in range(len(list(damages(a_journal(room, "none"))))):
        name = f"{room.name}-{place}"[-40:]
        what, key, value = list(damages(a_journal(room, name)))[place]
        if value is None:
            room.gateway.delete(key)
        else:
            room.gateway.put(key, value)
        runs.append((what, room.run(name=name)))
    what, sound = runs.pop(0)
    sound.wait_until_it_listens()
    for what, run in runs:
        status, texts = run.wait_for_end()
        if status != 1 or len(texts) != 1 or not texts[0].startswith("ringd: journal "):
            raise Differs(f"{what}: status {status}, {short(texts)}")
    return ", ".join(sorted({run.faults()[0] for _, run in runs}))
