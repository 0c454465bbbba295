"""Requests that are none, that ask for what is not there, or that never end. Each gets its reason, or its connection is
ended, and others are answered meanwhile."""

import contextlib
import errno
import re
import socket
import time

from serving import PATIENCE, Client, Differs, same
from web.asking import Web

HOST_FIELD = b"Host: localhost\r\n"
GOOD = b"GET /healthz HTTP/1.1\r\n" + HOST_FIELD + b"\r\n"
# The longest head and body, in bytes.
HEAD, BODY = 1 << 14, 1 << 20
MEGABYTE = b"x" * (1 << 20)
# The program may end a connection while its client still sends.
GONE = (errno.ECONNRESET, errno.EPIPE, errno.ENOTCONN)
FIRST = re.compile(rb"HTTP/1\.[01] ([1-5][0-9][0-9]) [A-Za-z -]+\r\n")
LENGTH = re.compile(rb"\r\ncontent-length: ([0-9]+)\r\n")
OWN = (400, 413, 414, 431, 501)
MAY_BE = {100, 200, 404, 405, 421, *OWN}
# Requests that are changed by chance.
SEEDS = (GOOD, b"HEAD / HTTP/1.1\r\n" + HOST_FIELD + b"Connection: close\r\n\r\n",
         b"GET /v1/groups/a?after=1&wait=0 HTTP/1.1\r\nUser-Agent: x\r\n" + HOST_FIELD + b"Accept: */*\r\n\r\n",
         b"GET /metrics HTTP/1.0\r\n" + HOST_FIELD + b"\r\n",
         b"POST /v1/groups HTTP/1.1\r\n" + HOST_FIELD + b"Content-Length: 5\r\nExpect: 100-continue\r\n\r\nhello",
         b"GET /v1/groups HTTP/1.1\r\n" + HOST_FIELD + b"Transfer-Encoding: chunked\r\n\r\n5\r\nhello\r\n0\r\n\r\n")
PIECES = (b"\r\n", b"\n", b" ", b":", b"\0", b"%", b"/", b"?", b"HTTP/1.1", b"GET ", b"Content-Length: 9\r\n", b"\xff",
          b"Transfer-Encoding: chunked\r\n", b"Host: example.org\r\n", b"99999999999999999999", b"\t", b"#", b"..")


def ask(*fields, line=b"GET /healthz HTTP/1.1", host=HOST_FIELD, body=b""):
    """A request."""
    return line + b"\r\n" + host + b"".join(field + b"\r\n" for field in fields) + b"\r\n" + body


# What is sent, with the statuses of its answers, if the client then ends its sending.
REASONS = [
    (b"", []), (b"\r\n", [400]), (b"\0\xff\r\n\r\n", [400]), (b"GET\r\n\r\n", [400]), (b"GET / HT", [400]),
    (GOOD[:-2], [400]), (ask(line=b"GET / HTTP/9.9"), [400]), (ask(line=b"GET / HTTP/2.0"), [400]),
    (ask(line=b"GET  / HTTP/1.1"), [400]), (ask(host=b""), [400]), (ask(host=b"Host: a b\r\n"), [400]),
    (ask(host=HOST_FIELD * 2), [400]), (ask(b" folded"), [400]), (ask(b"X y: z"), [400]),
    (GOOD.replace(b"\r\n", b"\n"), [400]), (ask(host=b"", line=b"GET / HTTP/1.0"), [421]),
    (ask(host=b"Host: example.org\r\n"), [421]), (ask(line=b"GET http://example.org/ HTTP/1.1"), [421]),
    (ask(line=b"GET http://localhost/healthz HTTP/1.1", host=b"Host: example.org\r\n"), [200]),
    (ask(host=b"Host: LOCALHOST\r\n"), [200]), (ask(line=b"GET http://LOCALHOST/healthz HTTP/1.1"), [200]),
    (ask(line=b"GET * HTTP/1.1"), [404]), (ask(line=b"GET /v1/groups/%61 HTTP/1.1"), [404]),
    (ask(line=b"CONNECT localhost:80 HTTP/1.1"), [405]), (ask(line=b"get / HTTP/1.1"), [405]),
    (ask(b"Upgrade: websocket", b"Connection: upgrade"), [200]),
    # bodies
    (ask(b"Content-Length: 3", body=b"abc") + GOOD, [200, 200]), (ask(b"Content-Length: 30", body=b"abc"), [400]),
    (ask(b"Content-Length: %d" % (BODY + 1)), [413]), (ask(b"Content-Length: -1"), [400]),
    (ask(b"Content-Length: 99999999999999999999999"), [400]), (ask(b"Content-Length: 1", b"Content-Length: 2"), [400]),
    (ask(b"Content-Length: 1", b"Transfer-Encoding: chunked", body=b"0\r\n\r\n"), [400]),
    (ask(b"Transfer-Encoding: chunked", body=b"3\r\nabc\r\n0\r\n\r\n") + GOOD, [200, 200]),
    (ask(b"Transfer-Encoding: chunked", body=b"zz\r\nabc\r\n0\r\n\r\n"), [400]),
    (ask(b"Transfer-Encoding: gzip, chunked", body=b"0\r\n\r\n"), [501]),
    (ask(b"Expect: 100-continue", b"Content-Length: 3", body=b"abc"), [100, 200]),
    (ask(b"Expect: 100-continue", b"Content-Length: 3"), [100, 400]), (ask(b"Expect: 100-continue"), [200]),
    (ask(b"Expect: 100-continue", b"Content-Length: %d" % (BODY + 1)), [413]),
    # several requests at once
    (GOOD * 50, [200] * 50), (GOOD * 2 + b"x\r\n\r\n" + GOOD, [200, 200, 400]),
    (ask(b"Connection: close") + GOOD, [200]),
    # long heads
    (ask(*[b"X: y"] * 63), [200]), (ask(*[b"X: y"] * 64), [431]), (ask(b"X: " + b"x" * (HEAD - 60)), [200]),
    (ask(b"X: " + b"x" * (HEAD - 40))[:HEAD + 1], [431]), ((b"GET /" + b"x" * HEAD)[:HEAD + 1], [414]),
]
# Heads and bodies of which more comes than is read. At a port their clients may hear of a reset and of nothing else.
LONG = [(ask(b"X: " + MEGABYTE), [431]), (ask(line=b"GET /" + MEGABYTE + b" HTTP/1.1"), [414]),
        (ask(*[b"X: y"] * 100000), [431]), (ask(b"Content-Length: %d" % (2 * BODY), body=2 * MEGABYTE), [413])]


@contextlib.contextmanager
def up_to_the_end():
    """What a client does until the program has ended its connection."""
    try:
        yield
    except OSError as error:
        if error.errno not in GONE:
            raise


def reply_to(port, text):
    """What a client is answered that sends a text and ends its sending, up to a reset. A text that is not taken to its
    end may have been answered."""
    client, parts = Client(port), []
    with up_to_the_end():
        client.send(text)
        client.end_sending()
    with up_to_the_end():
        while part := client.socket.recv(1 << 20):
            parts.append(part)
    client.close()
    return b"".join(parts)


def statuses_in(reply):
    """The statuses of the responses that an answer is made of. A response to HEAD has no body."""
    statuses = []
    while reply:
        first = FIRST.match(reply)
        head, end, rest = reply.partition(b"\r\n\r\n")
        if not first or not end:
            raise Differs(f"no response: {reply[:60]}")
        statuses.append(int(first[1]))
        length = LENGTH.search(head + b"\r\n")
        if statuses[-1] in OWN and not (length and length[1] == b"0" and b"\r\nconnection: close" in head):
            raise Differs(f"a refusal that does not close: {head}")
        is_short = not rest or rest.startswith(b"HTTP/1.")
        reply = rest if is_short or not length else rest[int(length[1]):]
    return statuses


def check_reasons(port):
    """Each request is answered for its reason."""
    for text, wanted in REASONS:
        same(f"the statuses for {text[:80]}", statuses_in(reply_to(port, text)), wanted)
    for text, wanted in LONG:
        seen = statuses_in(reply_to(port, text))
        if seen != wanted and (seen or isinstance(port, str)):
            raise Differs(f"{seen} for {len(text)} bytes, and not {wanted}")


def changed(dice, text):
    """A text with some changes by chance."""
    for _ in range(dice.randrange(1, 5)):
        place, part = dice.randrange(len(text) + 1), dice.randrange(1, 9)
        how = dice.randrange(4)
        piece = (b"", dice.choice(PIECES), dice.randbytes(1), text[place:place + part] * 2)[how]
        text = text[:place] + piece + text[place + (part if how != 1 else 0):]
    return text


def expect_random(port, dice):
    """Random bytes are no request."""
    seen = statuses_in(reply_to(port, dice.randbytes(dice.randrange(1, 300))))
    same("the statuses for random bytes", seen, [400])


def expect_cut(port, dice):
    """Of requests that are cut off, each whole one is answered, and the rest is refused."""
    count, cut = dice.randrange(4), dice.randrange(len(GOOD))
    seen = statuses_in(reply_to(port, GOOD * count + GOOD[:cut]))
    same(f"the statuses for {count} requests and {cut} bytes", seen, [200] * count + [400] * (cut > 0))


def expect_changed(port, dice):
    """A changed request may be a good one. Its answer is one that there is a reason for."""
    text = b"".join(changed(dice, dice.choice(SEEDS)) for _ in range(dice.randrange(1, 4)))
    seen = statuses_in(reply_to(port, text))
    refused = [number for number, status in enumerate(seen, 1) if status in OWN]
    if not set(seen) <= MAY_BE or refused not in ([], [len(seen)]):
        raise Differs(f"{text} got {seen}")


def leave_early(port, dice):
    """A client that reads nothing, and closes or resets its connection. Over a socket in the file system there is no
    reset but that of a client that leaves its answer unread."""
    client, is_reset = Client(port), dice.randrange(2)
    if is_reset and isinstance(port, str):
        client.send(GOOD)
        same("an answer that is left", client.socket.recv(1, socket.MSG_PEEK), b"H")
    else:
        client.send(dice.choice(SEEDS)[:dice.randrange(1, 80)])
    (client.reset if is_reset else client.close)()


def fuzz(port, count, dice):
    """Makes bad requests by chance. Another client is answered all the while."""
    others = Web(port)
    for number in range(count):
        one = dice.choices((expect_changed, expect_random, expect_cut, leave_early), (6, 2, 1, 1))[0]
        one(port, dice)
        if number % 100 == 0:
            same("health among bad requests", others.get("/healthz")[2], b"ok\n")


def check_slow(port, pace):
    """A good request that comes byte by byte is answered."""
    client = Client(port)
    for byte in GOOD:
        client.send(bytes([byte]))
        time.sleep(pace)
    client.end_sending()
    same("the statuses for a slow request", statuses_in(client.all()), [200])
    client.close()


def check_silent(port, idle):
    """A client that is silent is ended after the seconds of --idle: at first, in a head, in a body, or afterwards."""
    texts = (b"", GOOD[:30], ask(b"Content-Length: 9", body=b"abc"), GOOD)
    begun, clients = time.monotonic(), [Client(port) for _ in texts]
    for client, text in zip(clients, texts):
        client.send(text)
    for client, text in zip(clients, texts):
        try:
            same(f"the statuses for {text}, and then nothing", statuses_in(client.all()), [200] * (text == GOOD))
        except ConnectionResetError:
            pass
        took = time.monotonic() - begun
        if not idle - 0.5 <= took <= idle + PATIENCE:
            raise Differs(f"a client that was silent after {text} was ended after {took:.2f} s")
        client.close()
