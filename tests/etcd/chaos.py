"""Chaos: two processes over three members of etcd, each of which is killed, stopped or cut off while clients go on.

`tests/check-etcd --only chaos --minutes 15 crates/ringd/out/ringd` runs it. 16 clients change groups and 8 campaign.
Every few seconds there is one trouble, and the next one comes when changes are told again. In the end every reply that
any client was told must fit the journal, by its place; no term has two leaders; and no place was used twice.

Members and processes are in network namespaces of their own, which are cut off from one another. If the machine gives
none, they are stopped only. Processes serve at sockets in the file system, so a process that is cut off from etcd still
has its clients. To cut it off from these, they neither write nor read, as if a tunnel between stood still.
"""

import contextlib
import json
import pathlib
import random
import tempfile
import threading
import time

import etcd_members
from etcd.gateway import Gateway
from etcd.judging import judge, told_by
from etcd.log import whole_text
from etcd.lying import see_lies
from etcd.nets import Net, Refused
from etcd.runs import FAILED, LONG, TAKEN_OVER, Run
from etcd.talking import Candidate, SessionClient
from etcd.troubles import TROUBLES, Gaps
from journals.changes import history_of
from journals.lives import asked, compare
from serving import Differs, short

NAME = "chaos"
CLIENTS, CANDIDATES = 16, 8
# Within how many seconds of a majority there is service again.
SOON = 3.0
# How many seconds pass between the end of a process and its restart, and between two troubles.
RESTART, BETWEEN = 0.2, (1.0, 3.0)
# In how many seconds there is at least one trouble.
SPARSE = 20
# How many lines of what happened are printed if something is wrong, and which time without a change is one of them.
MOST_STORY, LULL = 200, 0.5
MEMBERS = ("e0", "e1", "e2")
WORDS = ("--places", "--sessions", "64", "--campaign", "CAMPAIGNS")


class Slot:
    """A place for a process, which is started again when it ends."""

    def __init__(self, chaos, name):
        self.chaos, self.name, self.run, self.runs = chaos, name, None, []
        self.is_held = self.is_stopped = False

    def begin(self):
        """Starts the process."""
        first = self.chaos.dice.randrange(3)
        journal = f"etcd://{self.chaos.members.places(first)}/{NAME}"
        self.run = Run(self.chaos.program, self.chaos.folder, journal, *WORDS, before=self.chaos.before(self.name))
        self.runs.append(self.run)

    def look(self):
        """Starts the process again if it has ended, in a way in which it may."""
        if self.run.run.poll() is None:
            return
        status, texts = self.run.wait_for_end()
        if status != -9 and (status != 1 or texts not in [[it] for it in (TAKEN_OVER, *FAILED)]):
            raise Differs(f"a process ended with status {status} and {short(texts)}")
        time.sleep(RESTART)
        self.begin()


class Chaos:
    """The members, the processes and their clients."""

    def __init__(self, program, folder, net, minutes):
        self.program, self.folder, self.net = program, pathlib.Path(folder), net
        self.dice, self.seconds, self.fault, self.is_over = random.Random(minutes), 60 * minutes, None, False
        self.begun, self.story = time.monotonic(), []
        hosts = [net.address(it) for it in MEMBERS] if net else [etcd_members.HOST] * 3
        with self.inside():
            self.members = etcd_members.Members(folder, hosts, [self.before(it) for it in MEMBERS])
        self.slots = [Slot(self, name) for name in "ab"]
        self.clients = [SessionClient(self.slots, number) for number in range(CLIENTS)]
        self.candidates = [Candidate(self.slots, number) for number in range(CANDIDATES)]

    def before(self, name):
        """The words before a command in a namespace."""
        return self.net.before(name) if self.net else ()

    def inside(self):
        """Where this program can ask the members."""
        return self.net.inside("check") if self.net else contextlib.nullcontext()

    def gateway(self):
        """The gateway of the members."""
        return Gateway(self.members.places())

    def active(self):
        """The slot whose process serves."""
        until = time.monotonic() + LONG
        while time.monotonic() < until:
            serving = [it for it in self.slots if it.run.listens() and not it.is_stopped]
            if serving:
                return max(serving, key=lambda it: it.run.said(it.run.listening()))
            time.sleep(0.02)
        raise Differs(f"for {LONG} seconds no process listened")

    def standby(self):
        """The other slot."""
        active = self.active()
        return next(it for it in self.slots if it is not active)

    def restart(self):
        """Starts processes again as they end, until it is over."""
        try:
            while not self.is_over:
                for slot in self.slots:
                    slot.look()
                time.sleep(0.02)
        except Exception as fault:  # (whatever it is: nobody else hears of it)
            self.fault = fault

    def see_no_fault(self):
        """Sees that no thread has ended by a fault."""
        for fault in [self.fault, *(it.fault for it in self.clients + self.candidates)]:
            if fault:
                raise Differs(f"a thread ended by {fault!r}") from fault

    def changed(self):
        """The moments when changes were told, in their order."""
        return sorted(moment for client in self.clients for moment in list(client.changed))

    def wait_for_change(self, since):
        """Waits until a change is told after a moment."""
        until = time.monotonic() + LONG
        while not any(client.changed and client.changed[-1] > since for client in self.clients):
            self.see_no_fault()
            if time.monotonic() > until:
                raise Differs(f"for {LONG} seconds no change was told")
            time.sleep(0.02)

    def live(self):
        """Makes one trouble after another. The answer is how long there was no service after each kind."""
        for slot in self.slots:
            slot.begin()
        keeper = threading.Thread(target=self.restart, daemon=True)
        for thread in (keeper, *self.clients, *self.candidates):
            thread.start()
        self.wait_for_change(0)
        gaps, until = Gaps(), time.monotonic() + self.seconds
        kinds = [it for it in TROUBLES if self.net or not it.needs_net]
        left = []
        while time.monotonic() < until:
            left = left or self.dice.sample(kinds, len(kinds))
            time.sleep(self.dice.uniform(*BETWEEN))
            gaps.add(*left.pop().make(self))
        self.wait_for_change(time.monotonic())
        self.is_over = True
        for thread in (keeper, *self.clients, *self.candidates):
            thread.is_over = True
            thread.join()
        self.see_no_fault()
        longest = gaps.measured(self.changed())
        for name, seconds, count in longest:
            print(f"chaos: {name}, {count} times: at most {seconds:.1f} s without service", flush=True)
        made = sum(count for _, _, count in longest)
        if made < self.seconds / SPARSE:
            raise Differs(f"there were {made} troubles in {self.seconds:.0f} seconds")
        return longest

    def judged(self):
        """Sees that all replies fit the journal, and that one more life has its groups."""
        pairs = [it for client in self.clients for some in client.pairs() for it in [told_by(some)]]
        named = [it for candidate in self.candidates for it in candidate.named()]
        with self.inside():
            events = self.gateway().events(f"ring/{NAME}/")
        told = [told for some in pairs for told in some]
        try:
            line = judge(NAME, events, told, named)
        except Differs as why:
            raise Differs(f"{why}; {kept(events, told, named)} has what was told, and the journal") from why
        lies = see_lies(NAME, events, told)
        self.see_last_life()
        runs = sum(len(it.runs) for it in self.slots)
        return f"{line}, {lies} lies are reported, {len(named)} lines of campaigns, {runs} processes"

    def see_last_life(self):
        """Sees that a life without campaigns has the groups of the journal."""
        run = Run(self.program, self.folder, f"etcd://{self.members.places()}/{NAME}", before=self.before("a"))
        run.wait_until_it_listens()
        with self.inside():
            history = history_of(whole_text(NAME, self.gateway().keys(f"ring/{NAME}/")))
        with contextlib.closing(run.client()) as client:
            compare(lambda questions: asked(client, questions), history, history.count)
        run.kill()

    def print_story(self):
        """Prints what was done, and what the processes printed, each with its moment in seconds."""
        story = [(moment, f"{slot.name}{run.number}: {line or 'a stream ends'}")
                 for slot in self.slots for run in slot.runs for moment, line in list(run.lines)]
        changed = self.changed()
        story += [(later, f"no change was told for {later - earlier:.2f} s")
                  for earlier, later in zip(changed, changed[1:]) if later - earlier > LULL]
        for moment, line in sorted(story + self.story)[-MOST_STORY:]:
            print(f"chaos: {moment - self.begun:8.2f} {line}", flush=True)

    def kill(self):
        """Kills the processes."""
        self.is_over = True
        for run in [run for slot in self.slots for run in slot.runs]:
            run.run.kill()

    def close(self):
        """Ends all that it began."""
        self.kill()
        self.members.end()


def kept(events, told, named):
    """Keeps what was seen in a file. The answer is its path."""
    handle, path = tempfile.mkstemp(prefix="check-etcd-", suffix=".json")
    seen = {"told": sorted(told), "named": named,
            "events": [(revision, key, (value or b"").decode("latin-1"), value is None)
                       for revision, key, value in events]}
    with open(handle, "w", encoding="utf-8") as file:
        json.dump(seen, file, indent=0)
    return path


def network():
    """A net for the members and the processes; None if the machine gives none, which is said."""
    try:
        return Net(*MEMBERS, "a", "b", "check")
    except Refused as why:
        print(f"chaos: no network namespaces here, so nothing is cut off, only killed and stopped: {why}", flush=True)
        return None


def check(program, minutes, within=SOON):
    """Makes chaos for some minutes. The answer is a line about it."""
    net = network()
    with contextlib.closing(net) if net else contextlib.nullcontext():
        with tempfile.TemporaryDirectory() as folder, contextlib.closing(Chaos(program, folder, net, minutes)) as chaos:
            try:
                longest = chaos.live()
                chaos.kill()
                line = chaos.judged()
                worst = max(seconds for _, seconds, _ in longest)
                if worst > SOON and worst <= within:
                    chaos.print_story()
                if worst > within:
                    raise Differs(f"{line}; but there was no service for {worst:.1f} seconds with a majority")
            except (Differs, OSError):
                chaos.print_story()
                raise
    return f"{line}; at most {worst:.1f} s without service with a majority"
