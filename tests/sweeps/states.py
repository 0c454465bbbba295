"""What groups may be after some commands, of which some had no reply."""

from journals.changes import Group, answer, line_of
from server import Lost
from failing import REFUSED, Failing
from sweep import Bad


def reply_of(groups, name, command):
    """Returns the reply of groups to a command about one of them, or to `groups` if there is no name."""
    return answer(name, groups.get(name) if name else tuple(groups), command)


def after(groups, name, command):
    """Returns groups after a command. They are the same if it is refused or asks only."""
    group, said = groups.get(name), reply_of(groups, name, command)
    if said != "ok" and not said.startswith("term "):
        return groups
    return {**groups, name: Group(*command[1:]) if command[0] == "create" else group.after(command)}


def is_answer(groups, name, command, reply):
    """Whether groups may give a reply to a command. Who knows the leader of the last term is not known."""
    group = groups.get(name)
    if command[0] == "who" and reply.startswith("undecided "):
        return reply == f"undecided {len(group.leaders)}"
    if command[0] == "who" and reply.startswith("leader "):
        return reply == f"leader {len(group.leaders)} {group.winner()}"
    return reply == reply_of(groups, name, command)


def shown(groups):
    """What is compared of groups: their order, kinds and members, and how many terms each has."""
    return [(name, group.kind, group.members, len(group.leaders)) for name, group in groups.items()]


class Session(Failing):
    """A session that asks commands one by one, until each is answered. It knows what the groups may be."""

    def __init__(self, server, call, how, groups):
        super().__init__(server, call, how)
        self.states = [groups]

    def ask(self, name, command):
        """Asks a command, once more after each refusal of memory and each end of a session."""
        line = line_of(name, command)[:-1]
        while True:
            self.session = self.session or self.connect(self.server.port)
            try:
                reply = self.session.ask(line)
            except Lost:
                self.states = [*self.states, *(after(groups, name, command) for groups in self.states)]
                self.session.socket.close()
                self.session = None
                self.fail(f"a session ended at {line!r}")
                continue
            self.lines += 1
            if reply != REFUSED:
                return self.hear(name, command, reply.decode())
            self.fail(f"{line!r} is refused memory")

    def hear(self, name, command, reply):
        """Keeps the groups that give this reply, as they are after it."""
        giving = [groups for groups in self.states if is_answer(groups, name, command, reply)]
        if not giving:
            raise Bad(f"{command} about {name} is answered {reply!r}")
        self.states = [after(groups, name, command) for groups in giving]

    def expect(self, groups, where):
        """Sees that groups are what they may be."""
        if shown(groups) not in map(shown, self.states):
            raise Bad(f"{where} are the groups {shown(groups)}, and not {shown(self.states[-1])}")
