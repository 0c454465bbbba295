"""Floods of connections. Each is made by processes of its own, so that the clients that are measured do not wait for it.

A flood has *comers*, which come at a rate, say something and are reset a moment later. It may have *squatters* too, which
hold all places that they get, and come again as soon as their connection is ended.
"""

import collections
import contextlib
import ctypes
import json
import os
import select
import signal
import socket
import struct
import time

from serving import HOST

# How many connections squat: for 64 places, and for the 128 that the kernel lets wait at a port.
SQUATTERS = 192
# How long a comer stays if there are squatters, how many are there at most for each process, and how many come at once.
STAY, MOST, BURST = 0.2, 3000, 50
# How many times as long as it should a flood may take.
LATE = 20
# How often a squatter with half a line sends one byte more, in seconds.
DRIP = 0.5
BLOCK = b"x" * (1 << 16)
# A number of prctl: the system ends a process when its parent ends.
END_WITH_PARENT = 1
RESET = struct.pack("ii", 1, 0)
# What is said in each kind of flood: half a line, or half a head.
HALF = {"sessions": b"who kept", "campaigns": b"join kept", "http": b"GET /healthz HTTP/1.1\r\nX: "}
KINDS = ("silent", "half", "gigabyte")


def first_of(entrance, kind):
    """What a client of a flood says first."""
    return {"silent": b"", "half": HALF[entrance], "gigabyte": HALF[entrance] + BLOCK}[kind]


def come(place, said):
    """A connection that was asked for. Nobody waits until it is there."""
    there = socket.socket(socket.AF_UNIX if isinstance(place, str) else socket.AF_INET)
    there.setblocking(False)
    there.setsockopt(socket.SOL_SOCKET, socket.SO_LINGER, RESET)
    with contextlib.suppress(OSError):
        there.connect(place if isinstance(place, str) else (HOST, place))
    if said:
        with contextlib.suppress(OSError):
            there.send(said)
    return there


def leave(there):
    """Ends a connection. The answer is whether the kernel had let it in."""
    with contextlib.closing(there):
        try:
            there.getpeername()
        except OSError:
            return False
        return True


def stream(gate, place, said, rate, stay, seconds):
    """As many comers as come at a rate in some seconds, once a byte comes from the gate. A busy machine takes longer. Each stays
    a moment. The answer is how many came, and how many the kernel had let in when they left."""
    os.read(gate, 1)
    here, began, came, let_in = collections.deque(), time.monotonic(), 0, 0
    while came < int(rate * seconds) and (now := time.monotonic()) < began + LATE * seconds:
        for _ in range(min(int(min(now - began, seconds) * rate) - came, BURST)):
            here.append((now, come(place, said)))
            came += 1
            if not stay:
                let_in += leave(here.popleft()[1])
        while here and (here[0][0] < now - stay or len(here) > MOST):
            let_in += leave(here.popleft()[1])
        time.sleep(0.0005)
    took = time.monotonic() - began
    return {"came": came, "let_in": let_in + sum(leave(there) for _, there in here), "seconds": took}


class Squatter:
    """A connection that stays as long as it may."""

    def __init__(self, place, first, kind):
        self.place, self.first, self.kind = place, first, kind
        self.there, self.sent, self.again = None, 0, 0.0

    def begin(self, chosen, now):
        """Comes, and comes again later if that was in vain."""
        self.there, self.sent, self.again = come(self.place, b""), 0, now + DRIP
        chosen.register(self.there, select.POLLIN | select.POLLOUT)
        return self.there.fileno()

    def end(self, chosen):
        """Leaves."""
        chosen.unregister(self.there)
        self.there.close()

    def more(self):
        """The bytes that are to be sent now, if any."""
        if not self.sent:
            return self.first
        return BLOCK if self.kind == "gigabyte" else b""

    def act(self, chosen, events):
        """Sends what is due and reads what came. The answer is whether the connection is there still."""
        try:
            if events & (select.POLLERR | select.POLLHUP):
                return False
            if events & select.POLLIN and not self.there.recv(65536):
                return False
            if events & select.POLLOUT and (more := self.more()):
                self.sent += self.there.send(more)
        except BlockingIOError:
            return True
        except OSError:
            return False
        if not self.more():
            chosen.modify(self.there, select.POLLIN)
        return True

    def drip(self, now):
        """Sends one byte more of its half line, each so often."""
        if self.kind == "half" and self.sent and now > self.again:
            self.again = now + DRIP
            with contextlib.suppress(OSError):
                self.sent += self.there.send(b"x")


def squat(place, first, kind):
    """Squatters, until they are stopped. The answer is how often they came, and how many bytes they sent."""
    chosen, over = select.poll(), []
    signal.signal(signal.SIGTERM, lambda *_: over.append(True))
    here = {it.begin(chosen, 0): it for it in (Squatter(place, first, kind) for _ in range(SQUATTERS))}
    came, sent = SQUATTERS, 0
    while not over:
        now = time.monotonic()
        for number, events in chosen.poll(50):
            one = here[number]
            if not one.act(chosen, events):
                sent += one.sent
                one.end(chosen)
                del here[number]
                here[one.begin(chosen, now)] = one
                came += 1
                time.sleep(0.0005 if events & select.POLLERR else 0)
        for one in here.values():
            one.drip(now)
    return {"came": came, "sent": sent + sum(one.sent for one in here.values())}


class Worker:
    """A process that makes a part of a flood, and what it says at its end."""

    def __init__(self, make, *given):
        self.source, tell = os.pipe()
        self.pid = os.fork()
        if self.pid == 0:
            status = 1
            ctypes.CDLL(None).prctl(END_WITH_PARENT, signal.SIGKILL)
            try:
                os.write(tell, json.dumps(make(*given)).encode())
                status = 0
            finally:
                os._exit(status)
        os.close(tell)

    def result(self):
        """What it says."""
        with open(self.source, "rb") as told:
            said = told.read()
        os.waitpid(self.pid, 0)
        self.pid = None
        return json.loads(said)

    def kill(self):
        """Ends it, if nobody has waited for it."""
        if self.pid:
            os.kill(self.pid, signal.SIGKILL)
            os.waitpid(self.pid, 0)
            os.close(self.source)


class Flood:
    """A flood of a place. Squatters come first, and then comers for some seconds, by some processes."""

    def __init__(self, entrance, place, kind, stays, words):
        self.name, first = f"{kind} at {entrance}, {'holding' if stays else 'leaving'}", first_of(entrance, kind)
        self.squatters = Worker(squat, place, first, kind) if stays else None
        gate, self.gate = os.pipe()
        given = gate, place, first, words.rate / words.processes, STAY if stays else 0, words.seconds
        self.comers = [Worker(stream, *given) for _ in range(words.processes)]
        os.close(gate)

    def __enter__(self):
        return self

    def __exit__(self, kind, value, trace):
        for it in [*self.comers, *([self.squatters] if self.squatters else [])]:
            it.kill()

    def begin(self):
        """Lets comers come."""
        os.write(self.gate, b"x" * len(self.comers))

    def end(self):
        """Waits for its end. The answer is how many came, and how many in a second, which part of them the kernel let in, and
        what the squatters did."""
        came, held = [it.result() for it in self.comers], {"came": 0, "sent": 0}
        os.close(self.gate)
        if self.squatters:
            os.kill(self.squatters.pid, signal.SIGTERM)
            held = self.squatters.result()
        count, rate = sum(it["came"] for it in came), sum(it["came"] / it["seconds"] for it in came)
        return count, rate, sum(it["let_in"] for it in came) / max(1, count), held
