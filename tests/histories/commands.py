"""Commands by chance, and their calls: each command with its reply, and when that was."""

import time

from identity import Identity
from model import Call
from serving import Differs, short

KINDS = ["lelann", "chang", "hirschberg", "peterson"]
DRAWN = {"who": 100, "join": 44, "leave": 28, "members": 20, "start": 2, "terms": 1}
WEIGHTS = [0, 0, 1, 9, 65535]


def line_of(group, command):
    """The line of a command about a group."""
    first, *rest = command
    return " ".join([first, group, *map(str, rest)]).encode() + b"\n"


def ask(client, group, command):
    """One command, its reply, and when it was."""
    begun = time.monotonic_ns()
    reply = client.ask(line_of(group, command))
    return Call(begun, time.monotonic_ns(), command, text(reply))


def text(reply):
    """A reply as text, without its end."""
    if not reply.endswith(b"\n"):
        raise Differs(f"a reply was cut: {short(reply)}")
    return reply[:-1].decode()


def any_command(dice, numbers, of_others=None):
    """A command about a group whose members have these numbers; others are asked about at most."""
    word = dice.choices(list(DRAWN), DRAWN.values())[0]
    if word == "join":
        return word, Identity(dice.choice(WEIGHTS), dice.choice(numbers))
    if word == "leave":
        return word, dice.choice(numbers)
    if word == "who":
        return word, dice.choice(of_others or numbers)
    return (word,)
