"""The clients that ask at a time, what they ask, and what each keeps of it."""

import contextlib
import random
import threading
import time

from histories.commands import KINDS, any_command, ask, line_of, text
from identity import numbers_of
from model import Call, Group, after
from serving import PATIENCE, Client, Differs, same, short

CLIENTS = 64
TEAMS = 16
OF_ALL = "all"
SHARES = 4  # members that each client has in the group of all


def see_nothing(client):
    """Ends the sending of a client, which must get nothing more."""
    same("what comes after all replies", client.told(b""), b"")


class Lone:
    """A group that one user alone commands, and what it must answer."""

    def __init__(self, name, kind):
        self.name, self.group = name, Group(kind)

    def tell(self, client, commands):
        """Sends all commands at once, and looks at each reply."""
        client.send(b"".join(line_of(self.name, command) for command in commands))
        for command in commands:
            reply = text(client.line())
            changed = after(self.group, command, reply)
            if changed is None:
                raise Differs(f"{self.name}: {command} was answered {short(reply)}")
            self.group = changed


class Member:
    """One of the clients that ask at a time."""

    def __init__(self, number, port, until):
        self.number, self.port, self.until = number, port, until
        self.dice = random.Random(number)
        self.own = Lone(f"own{number}", KINDS[number % 4])
        self.team = f"team{number % TEAMS}"
        self.shares = [number + 1 + CLIENTS * place for place in range(SHARES)]
        self.team_calls, self.all_calls, self.lists = [], [], []
        self.commands, self.breach = 0, f"client {number}: its thread stopped"

    def run(self):
        """Asks until the time is over, by one connection after another."""
        try:
            with contextlib.closing(Client(self.port)) as client:
                same("reply", client.ask(f"create {self.own.name} {self.own.group.kind}\n".encode()), b"ok\n")
            while time.monotonic() < self.until:
                client = Client(self.port)
                for _ in range(self.dice.randrange(20, 200)):
                    self.commands += self.some(client)
                self.dice.choice([client.close, client.reset, lambda: see_nothing(client)])()
            self.commands += 1
            self.breach = None
        except (Differs, OSError) as error:
            self.breach = f"client {self.number}: {error}"

    def some(self, client):
        """Some commands; the answer is how many."""
        place = self.dice.random()
        if place < 0.3:
            numbers = range(1, 31)
            commands = [any_command(self.dice, numbers) for _ in range(self.dice.randrange(1, 10))]
            self.own.tell(client, commands)
            return len(commands)
        if place < 0.75:
            self.team_calls.append(ask(client, self.team, any_command(self.dice, range(1, 13))))
        elif place < 0.99:
            others = self.dice.choice([range(1, 5), range(1, CLIENTS * SHARES + 1)])
            self.all_calls.append(ask(client, OF_ALL, any_command(self.dice, self.shares, others)))
        else:
            begun = time.monotonic_ns()
            reply = client.ask(b"groups\n")
            self.lists.append(Call(begun, time.monotonic_ns(), ("groups",), text(reply)))
        return 1

    def decide(self):
        """Asks until all members of the group's last term know; no start comes between."""
        with contextlib.closing(Client(self.port)) as client:
            until = time.monotonic() + PATIENCE
            while unknown := [it for it in numbers_of(self.own.group.ring) if it not in self.own.group.informed]:
                if time.monotonic() > until:
                    raise Differs(f"{self.own.name}: {len(unknown)} members know no leader")
                self.own.tell(client, [("who", member) for member in unknown])
                self.commands += len(unknown)


def some_members(numbers, port, until):
    """The clients of these numbers, each in a thread of this process, after their work."""
    members = [Member(number, port, until) for number in numbers]
    threads = [threading.Thread(target=member.run) for member in members]
    for thread in threads:
        thread.start()
    for thread in threads:
        thread.join()
    for member in members:
        if not member.breach:
            try:
                member.decide()
            except (Differs, OSError) as error:
                member.breach = f"client {member.number}: {error}"
        del member.dice
    return members


def one_after_another(port, connections):
    """So many connections that come one after another; the answer is how many commands they gave."""
    dice, lone, count = random.Random(0), Lone("single", "peterson"), 1
    same("reply", Client(port).told(b"create single peterson\n"), b"ok\n")
    for _ in range(connections):
        client = Client(port)
        commands = [any_command(dice, range(1, 31)) for _ in range(dice.randrange(4))]
        lone.tell(client, commands)
        count += len(commands)
        dice.choice([client.close, client.reset, lambda: see_nothing(client)])()
    return count


def decided_by(port, group, numbers):
    """The calls that ask each member of a group's last term, until all of them know."""
    calls, until = [], time.monotonic() + PATIENCE
    with contextlib.closing(Client(port)) as client:
        for number in numbers:
            calls.append(ask(client, group, ("who", number)))
            while calls[-1].reply.startswith("undecided"):
                if time.monotonic() > until:
                    raise Differs(f"{group}: member {number} knows no leader")
                calls.append(ask(client, group, ("who", number)))
    if len({call.reply for call in calls if call.reply.startswith("leader")}) > 1:
        raise Differs(f"{group}: its members know different leaders")
    return calls
