"""The troubles of the chaos, and how long there was no service after each.

A trouble is a function that does some harm, yields, and undoes it. Service is expected from its begin on if a majority
of etcd and a process are left, together with the clients; else from its end on.
"""

import bisect
import contextlib
import signal
import time

# How long a trouble lasts, in seconds.
LENGTH = (1.0, 6.0)
TROUBLES = []


class Trouble:
    """A kind of trouble. `from_begin` says whether service is expected from its begin on."""

    def __init__(self, function, from_begin, needs_net):
        self.function, self.from_begin, self.needs_net = function, from_begin, needs_net
        self.name = function.__name__.replace("_", " ")

    def make(self, chaos):
        """Makes the trouble, and waits until a change is told. The answer is its name, and from when on until when
        service is expected."""
        harm = contextlib.contextmanager(self.function)(chaos)
        begun = time.monotonic()
        chaos.story.append((begun, self.name))
        with harm:
            time.sleep(chaos.dice.uniform(*LENGTH))
        ended = time.monotonic()
        chaos.story.append((ended, f"end of: {self.name}"))
        since = begun if self.from_begin else ended
        chaos.wait_for_change(ended)
        return self.name, since, time.monotonic()


def trouble(from_begin=True, needs_net=False):
    """Adds a trouble to the list."""
    def add(function):
        TROUBLES.append(Trouble(function, from_begin, needs_net))
        return function
    return add


class Gaps:
    """How long there was no service, for each kind of trouble."""

    def __init__(self):
        self.spans = []

    def add(self, name, since, until):
        """Notes a trouble, and from when until when changes are expected."""
        self.spans.append((name, since, until))

    def measured(self, moments):
        """The longest time without a change for each name, and how often it was made."""
        longest = {}
        for name, since, until in self.spans:
            inside = moments[bisect.bisect_right(moments, since):bisect.bisect_left(moments, until) + 1]
            gap = max(later - earlier for earlier, later in zip([since, *inside], inside))
            worst, count = longest.get(name, (0, 0))
            longest[name] = max(worst, gap), count + 1
        return [(name, worst, count) for name, (worst, count) in longest.items()]


def killed(slot):
    """Kills a process, which is started again by another thread."""
    slot.run.run.kill()


@contextlib.contextmanager
def stopped(slot):
    """A process is stopped."""
    run = slot.run.run
    slot.is_stopped = True
    run.send_signal(signal.SIGSTOP)
    try:
        yield
    finally:
        run.send_signal(signal.SIGCONT)
        slot.is_stopped = False


@contextlib.contextmanager
def cut(chaos, *names):
    """Namespaces are cut off from all others."""
    for name in names:
        chaos.net.cut(name)
    try:
        yield
    finally:
        for name in names:
            chaos.net.heal(name)


@trouble()
def kill_the_active(chaos):
    killed(chaos.active())
    yield


@trouble()
def kill_the_standby(chaos):
    killed(chaos.standby())
    yield


@trouble()
def kill_both(chaos):
    for slot in chaos.slots:
        killed(slot)
    yield


@trouble()
def stop_the_active(chaos):
    with stopped(chaos.active()):
        yield


@trouble()
def stop_the_standby(chaos):
    with stopped(chaos.standby()):
        yield


@trouble(from_begin=False)
def stop_both(chaos):
    with stopped(chaos.slots[0]), stopped(chaos.slots[1]):
        yield


@trouble()
def kill_a_member(chaos):
    each = chaos.dice.randrange(3)
    chaos.members.kill(each)
    yield
    chaos.members.start(each)


@trouble()
def stop_a_member(chaos):
    each = chaos.dice.randrange(3)
    chaos.members.stop(each)
    yield
    chaos.members.go_on(each)


@trouble(from_begin=False)
def stop_two_members(chaos):
    each = chaos.dice.randrange(3)
    both = (each, (each + 1) % 3)
    chaos.members.stop(*both)
    yield
    chaos.members.go_on(*both)


@trouble(from_begin=False)
def kill_all_members(chaos):
    for each in range(3):
        chaos.members.kill(each)
    for each in range(3):
        chaos.members.start(each)
    with chaos.inside():
        chaos.members.wait()
    yield


@trouble(from_begin=False)
def cut_the_clients_from_the_active(chaos):
    slot = chaos.active()
    slot.is_held = True
    yield
    slot.is_held = False


@trouble(needs_net=True)
def cut_a_member(chaos):
    with cut(chaos, f"e{chaos.dice.randrange(3)}"):
        yield


@trouble(from_begin=False, needs_net=True)
def cut_two_members(chaos):
    each = chaos.dice.randrange(3)
    with cut(chaos, f"e{each}", f"e{(each + 1) % 3}"):
        yield


@trouble(needs_net=True)
def cut_the_active_from_etcd(chaos):
    with cut(chaos, chaos.active().name):
        yield


@trouble(needs_net=True)
def cut_the_standby_from_etcd(chaos):
    with cut(chaos, chaos.standby().name):
        yield


@trouble(from_begin=False, needs_net=True)
def cut_both_from_etcd(chaos):
    with cut(chaos, "a", "b"):
        yield


@trouble(from_begin=False, needs_net=True)
def cut_all_from_all(chaos):
    with cut(chaos, "a", "b", "e0", "e1", "e2"):
        yield
