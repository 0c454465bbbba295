"""Clients that hold places: silent, slow, unread, waiting, or asking for all that there is."""

import contextlib
import json
import select
import socket
import time

from serving import PATIENCE, Client, Differs, same
from strain.floods import HALF, Worker
from strain.others import asked, fetch, visit

PLACES = 64
# How many clients take no answer.
DEAF = 4
# A whole question of each entrance, what its answer begins with, and the end of its half line.
QUESTIONS = {"sessions": (b"who kept 1\n", b"leader 1 1\n", b" 1\n"), "campaigns": (b"join none 1\n", b"no no-group\n", b" 1\n"),
             "http": (b"GET /healthz HTTP/1.1\r\nHost: localhost\r\n\r\n", b"HTTP/1.1 200 OK\r\n", b"\r\nHost: localhost\r\n\r\n")}
# Questions with long answers: 7 MB or more.
UNREAD = {"sessions": b"members long\n" * 4096, "http": b"GET /app.js HTTP/1.1\r\nHost: localhost\r\n\r\n" * 1024}
BODY = 1 << 20
LIMITS = {"groups": 256, "members": 256, "terms": 1000}


def answered(client, wanted, seconds):
    """Whether a client is answered within some seconds. Its answer is the right one."""
    client.socket.settimeout(seconds)
    try:
        same("an answer", client.line(), wanted)
    except TimeoutError:
        return False
    return True


def is_over(client, seconds):
    """Whether the connection of a client ends within some seconds, whatever it is told before."""
    until = time.monotonic() + seconds
    try:
        while (left := until - time.monotonic()) > 0:
            client.socket.settimeout(left)
            if not client.socket.recv(1 << 20):
                return True
    except TimeoutError:
        return False
    except ConnectionError:
        return True
    return False


def wait_served(trial, entrance, wanted, seconds=PATIENCE):
    """Waits until this many clients of an entrance are served, and the one that asks in the case of HTTP."""
    until, seen = time.monotonic() + seconds, None
    while seen != wanted and time.monotonic() < until:
        time.sleep(0.01)
        seen = trial.served(entrance) - (entrance == "http")
    same(f"clients of {entrance} that are served", seen, wanted)


def check_full(trial):
    """A full entrance lets the clients that wait in by their order, one for each place that is left. It ends those that are
    silent after --idle, and no sooner."""
    same("a group", Client(trial.places["sessions"]).told(b"create hall chang\njoin hall 1\nstart hall\n"),
         b"ok\nok\nterm 1\n")
    for entrance, (question, answer, _) in QUESTIONS.items():
        place, asked = trial.places[entrance], question
        if entrance == "campaigns":
            asked, answer = b"join hall %d\n", b"ok\n"
        holding = [Client(place) for _ in range(PLACES)]
        waiting = [Client(place) for _ in range(3)]
        for number, client in enumerate(waiting, 2):
            client.send(asked % number if b"%d" in asked else asked)
        for number in range(2):
            send_all([*holding, *waiting[:number]])
            same(f"an answer at {entrance}, which is full", answered(waiting[number], answer, 0.5), False)
            holding.pop(0).close()
            same(f"an answer at {entrance} after a place was left", answered(waiting[number], answer, PATIENCE), True)
        began = time.monotonic()
        send_all([*holding, *waiting[:2]])
        same(f"an answer at {entrance} after --idle", answered(waiting[2], answer, PATIENCE), True)
        if (took := time.monotonic() - began) < trial.words.idle:
            raise Differs(f"silent clients of {entrance} were let go after {took:.2f} s")
        for client in [*holding, *waiting]:
            client.close()
        wait_served(trial, entrance, 0)
    trial.said.append("full entrances let clients in by their order")


def send_all(clients):
    """Has each client send one byte of a line."""
    for client in clients:
        client.send(b"x")


def check_drip(trial):
    """Half a line is no end: a client that sends a byte now and then is served, and a silent one is let go."""
    idle, here, began = trial.words.idle, {}, time.monotonic()
    for entrance in QUESTIONS:
        here[entrance] = Client(trial.places[entrance]), Client(trial.places[entrance])
        for client in here[entrance]:
            client.send(HALF[entrance])
    sent = 0
    while time.monotonic() < began + 2.5 * idle:
        time.sleep(idle / 8)
        sent += 1
        for entrance in QUESTIONS if sent % 2 else []:
            here[entrance][0].send(b"x")
    for entrance, (slow, silent) in here.items():
        same(f"whether a silent client of {entrance} is let go", is_over(silent, 0.1), True)
        same(f"whether a slow client of {entrance} is let go", is_over(slow, 0.1), False)
        slow.send(QUESTIONS[entrance][2])
        slow.socket.settimeout(PATIENCE)
        wanted = b"HTTP/1.1 200 OK\r\n" if entrance == "http" else b"no no-group\n"
        same(f"the answer to a slow client of {entrance}", slow.line(), wanted)
        slow.close()
        silent.close()
    trial.said.append(f"a byte in {idle / 4} s keeps a place")


def hold_unread(trial, entrance, text):
    """Clients send questions and read no answer. They take places until --idle ends them. The answer is when the last one was
    let go."""
    clients = [Client(trial.places[entrance]) for _ in range(DEAF)]
    began = time.monotonic()
    for client in clients:
        client.socket.setsockopt(socket.SOL_SOCKET, socket.SO_RCVBUF, 4096)
        client.send(text)
    wait_served(trial, entrance, len(clients))
    same("a reply", Client(trial.places["sessions"]).told(b"who kept 1\n"), b"leader 1 1\n")
    wait_served(trial, entrance, 0, 2 * PATIENCE)
    took = time.monotonic() - began
    for client in clients:
        client.close()
    if took < trial.words.idle:
        raise Differs(f"clients of {entrance} that take no answer were let go after {took:.2f} s")
    return took


def check_unread(trial):
    """Clients that send questions with long answers and read none of them are let go, and so are clients that end no body. Others
    are answered, and memory is bounded."""
    client = Client(trial.places["sessions"])
    same("a group", client.ask(b"create long chang\n"), b"ok\n")
    same("members", client.told(b"".join(b"join long %d/9\n" % it for it in range(1, 257))), b"ok\n" * 256)
    for entrance, text in UNREAD.items():
        took = hold_unread(trial, entrance, text)
        trial.said.append(f"unread clients of {entrance} gone after {took:.1f} s")
    clients = []
    for _ in range(PLACES):
        clients.append(Client(trial.places["http"]))
        clients[-1].send(b"POST / HTTP/1.1\r\nHost: localhost\r\nContent-Length: %d\r\n\r\n" % BODY + b"x" * (BODY - 1))
    for client in clients:
        same("whether a client with half a body is let go", is_over(client, PATIENCE), True)
        client.close()
    trial.check_memory("answers that nobody took, and bodies that did not end")
    trial.said.append(f"{trial.peak() / 1e6:.0f} MB at most")


def check_polls(trial):
    """A long poll of a client that has gone holds its place until its wait is over. Of many that were sent together two do."""
    client = Client(trial.places["sessions"])
    same("a group", client.told(b"create polled chang\n"), b"ok\n")
    client, path, wait = Client(trial.places["http"]), "/v1/groups/polled", 5
    place = json.loads(fetch(client, path))["place"]
    client.close()
    poll, began = asked(f"{path}?after={place}&wait={wait}"), time.monotonic()
    for _ in range(16):
        client = Client(trial.places["http"])
        client.send(poll)
        client.close()
    wait_served(trial, "http", 16, wait)
    wait_served(trial, "http", 0)
    took = time.monotonic() - began
    if not wait - 0.5 < took < wait + 5:
        raise Differs(f"polls of clients that had gone took {took:.2f} s, and not {wait}")
    trial.said.append(f"polls of gone clients over after {took:.1f} s")
    began, client = time.monotonic(), Client(trial.places["http"])
    client.send(poll * 10)
    client.close()
    wait_served(trial, "http", 1, wait)
    wait_served(trial, "http", 0)
    if (took := time.monotonic() - began) > 2 * wait + 5:
        raise Differs(f"ten polls of {wait} s, sent together by a client that left, took {took:.2f} s")


def ask_long(place, seconds):
    """Clients of a process of its own that ask long questions without a pause. The answer is how many replies they read."""
    asked, chosen, here, read = b"members busy\n" * 64, select.poll(), {}, 0
    for _ in range(PLACES - 4):
        client = Client(place)
        client.send(asked)
        here[client.socket.fileno()] = [client, 0]
        chosen.register(client.socket, select.POLLIN)
    until = time.monotonic() + seconds
    while time.monotonic() < until:
        for number, _ in chosen.poll(50):
            count = here[number][0].socket.recv(1 << 20).count(b"\n")
            read, here[number][1] = read + count, here[number][1] + count
            if here[number][1] >= 64:
                here[number][1] -= 64
                here[number][0].send(asked)
    return read


def check_busy(trial):
    """A session is answered while all others ask long questions without a pause. It waits for its turn."""
    place, took = trial.places["sessions"], []
    same("a group", Client(place).told(b"create busy chang\n"), b"ok\n")
    same("members", Client(place).told(b"".join(b"join busy %d/9\n" % it for it in range(1, 257))), b"ok\n" * 256)
    client, worker = Client(place), Worker(ask_long, place, 2)
    try:
        until = time.monotonic() + 2
        while time.monotonic() < until:
            began = time.monotonic()
            same("a reply", client.ask(b"who kept 1\n"), b"leader 1 1\n")
            took.append(time.monotonic() - began)
            time.sleep(0.01)
        read = worker.result()
    finally:
        worker.kill()
    client.close()
    if not read:
        raise Differs("nobody was busy")
    took.sort()
    trial.said.append(f"beside {read} long replies a session waited {1000 * took[len(took) // 2]:.1f} ms, 99% within"
                      f" {1000 * took[int(0.99 * len(took))]:.0f} ms")


def check_limits(trial):
    """All groups, members and terms that there may be are taken. The next is refused, and others are answered."""
    client = Client(trial.places["sessions"])
    made = len(client.ask(b"groups\n").split()) - 1
    lines = b"".join(b"create z%d chang\n" % it for it in range(made, LIMITS["groups"]))
    same("groups", client.told(lines + b"create more chang\n"), b"ok\n" * (LIMITS["groups"] - made) + b"no group-limit\n")
    group = b"z%d" % (LIMITS["groups"] - 1)
    client = Client(trial.places["sessions"])
    same("terms", client.told(b"join %s 1\n" % group + b"start %s\n" % group * (LIMITS["terms"] + 1)).split(b"\n")[-2:],
         [b"no term-limit", b""])
    lines = b"".join(b"join %s %d\n" % (group, it) for it in range(2, LIMITS["members"] + 2))
    same("members", Client(trial.places["sessions"]).told(lines), b"ok\n" * (LIMITS["members"] - 1) + b"no ring-full\n")
    same("a campaign", visit(trial.places["campaigns"], "campaigns", PATIENCE), b"no no-group\n")
    campaign = Client(trial.places["campaigns"])
    same("a campaign in a full group", campaign.told(b"join %s 999\n" % group), b"no ring-full\n")
    with contextlib.closing(Client(trial.places["http"])) as client:
        same("health", fetch(client, "/healthz"), b"ok\n")
    same("a reply", Client(trial.places["sessions"]).told(b"who kept 1\n"), b"leader 1 1\n")
    trial.said.append("limits of groups, members and terms refused")
