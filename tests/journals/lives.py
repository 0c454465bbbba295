"""Lives of `ringd run --journal`: a run of the program, what it shows, and whether that fits a journal."""

import contextlib
import os
import signal
import subprocess
import time

from identity import numbers_of
from journals.changes import line_of
from ports import free_port
from serving import HOST, PATIENCE, Client, Differs, same, short, text_of, was_killed

# How often the program is started because somebody else took its port.
TRIES = 5
# For how many seconds leaders are waited for: on a machine that is busy, worker threads may have to wait. And how long
# a client waits before it asks again, so that it does not keep them from the processors.
LONG, PAUSE = 60, 0.002
# How many questions are sent at once.
AT_ONCE = 256
# How many zeros are written ahead of the text at a time, and at most how many bytes between two syncs.
AHEAD = 65536
LISTEN_FAILED = b"ringd: listen failed\n"


class Life:
    """A run of the program over a journal. `listens` says whether it listens; else it has ended."""

    def __init__(self, program, file, *words, environment=None, folder=None, user=None, umask=-1, workers=2,
                 inbox=1024):
        self.folder, self.user, self.umask, self.workers, self.inbox = folder or file.parent, user, umask, workers, inbox
        self.words = [program, "run", "CONFIG", *(["--journal", str(file)] if file is not None else []), *words]
        self.environment = {**os.environ, **(environment or {})}
        for _ in range(TRIES):
            self.begin()
            try:
                self.wait()
            except BaseException:  # (also if the check is stopped by a signal)
                self.run.kill()
                raise
            if self.listens or self.error != LISTEN_FAILED:
                break

    def begin(self):
        """Starts the program on a free port."""
        self.port, self.listens, self.error = free_port(), False, b""
        config = self.folder / f"{self.port}.toml"
        config.write_bytes(text_of(self.port, self.workers, self.inbox))
        drop = (lambda: os.setuid(self.user)) if self.user else None
        self.run = subprocess.Popen([config if word == "CONFIG" else word for word in self.words],
                                    stdin=subprocess.DEVNULL, stdout=subprocess.PIPE, stderr=subprocess.PIPE,
                                    env=self.environment, cwd=self.folder, preexec_fn=drop, umask=self.umask)

    def wait(self):
        """Waits until the program says that it listens, or ends."""
        self.out = self.run.stdout.readline()
        self.listens = self.out == b"listening %s:%d\n" % (HOST.encode(), self.port)
        if not self.listens:
            rest, self.error = self.run.communicate(timeout=PATIENCE)
            self.out += rest

    def kill(self):
        """Kills the process. The answer is what it wrote to standard error."""
        if self.listens:
            self.run.send_signal(signal.SIGKILL)
            rest, self.error = self.run.communicate(timeout=PATIENCE)
            self.out += rest
        return self.error


def kill_in_the_start(program, file, seconds):
    """Starts the program over a journal, and kills it after `seconds` seconds."""
    config = file.with_name("start.toml")
    config.write_bytes(text_of(free_port()))
    run = subprocess.Popen([program, "run", str(config), "--journal", str(file)], stdin=subprocess.DEVNULL,
                           stdout=subprocess.DEVNULL, stderr=subprocess.PIPE)
    try:
        time.sleep(seconds)
    finally:
        run.kill()
    _, error = run.communicate(timeout=PATIENCE)
    if error != LISTEN_FAILED:  # (another program may have taken the port meanwhile)
        same("standard error of a start that was killed", error, b"")
        was_killed(run)


def listing(program, file, **given):
    """Returns a run of `ringd journal`."""
    streams = {"stdin": subprocess.DEVNULL, "stdout": subprocess.PIPE, "stderr": subprocess.PIPE, **given}
    return subprocess.run([program, "journal", file], timeout=PATIENCE, check=False, **streams)


@contextlib.contextmanager
def living(program, file, *words, by=signal.SIGKILL, **given):
    """A life that listens, and is killed in the end, or by this signal before. It must not have ended by itself, and
    must have written nothing to standard error."""
    life = Life(program, file, *words, **given)
    try:
        if not life.listens:
            raise Differs(f"it ends with status {life.run.returncode}, {short(life.out)}, {short(life.error)}")
        yield life
    finally:
        error = life.kill()
    if error:
        raise Differs(f"standard error has {short(error)}")
    same("how a life ended", life.run.returncode, -by)


def asked(client, questions):
    """Asks many questions, each a group's name and a command. The answer is the replies."""
    replies = []
    for at in range(0, len(questions), AT_ONCE):
        some = questions[at:at + AT_ONCE]
        client.send(b"".join(line_of(name, command) for name, command in some))
        replies += [client.line()[:-1].decode() for _ in some]
    return replies


def compare(ask, history, count):
    """Compares all groups that `ask` shows with those after `count` changes. A member of a last term may have come to
    know the right leader since."""
    names = history.names.at(count)
    questions, wanted = [("", ("groups",))], [(" ".join(["groups", *names]),)]
    for name in names:
        group = history.group_at(name, count)
        decided = decided_group(group)
        for command in [("members",), ("terms",), *(("who", it) for it in numbers_of(group.ring))]:
            questions.append((name, command))
            wanted.append((group.reply(command), decided.reply(command)))
    for (name, command), seen, right in zip(questions, ask(questions), wanted):
        if seen not in right:
            line = short(line_of(name, command)[:-1].decode())
            raise Differs(f"after {count} changes {line} is answered {short(seen)}, and not {short(right[0])}")


def decided_group(group):
    """Returns a group whose last term is decided at all members."""
    if not group.ring:
        return group
    return group._replace(leaders=(*group.leaders[:-1], group.winner()), informed=frozenset(numbers_of(group.ring)))


def wait_until_decided(client, groups):
    """Waits until every member of the last term of these groups, given by their names, names the right leader."""
    wanted = [(name, ("who", it), decided_group(group)) for name, group in groups.items()
              for it in numbers_of(group.ring)]
    until = time.monotonic() + LONG
    while wanted:
        time.sleep(PAUSE)
        replies = asked(client, [(name, command) for name, command, _ in wanted])
        left = []
        for (name, command, group), reply in zip(wanted, replies):
            if reply == f"undecided {len(group.leaders)}":
                left.append((name, command, group))
            elif reply != group.reply(command):
                raise Differs(f"{name}: {command} is answered {short(reply)}, and not {group.reply(command)}")
        wanted = left
        if wanted and time.monotonic() > until:
            raise Differs(f"{wanted[0][0]}: {len(wanted)} members know no leader")


def go_on(client, history, count):
    """Waits until the last terms are decided, starts one more term of each group, and waits again."""
    groups = {name: history.group_at(name, count) for name in history.names.at(count)}
    wait_until_decided(client, groups)
    replies = asked(client, [(name, ("start",)) for name in groups])
    for (name, group), reply in zip(groups.items(), replies):
        if reply != group.reply(("start",)):
            raise Differs(f"{name}: start is answered {short(reply)}, and not {group.reply(('start',))}")
    wait_until_decided(client, {name: group.after(("start",)) for (name, group), reply in zip(groups.items(), replies)
                                if reply.startswith("term ")})


def client_of(life):
    """A client of a life, which ends with its use."""
    return contextlib.closing(Client(life.port))


def say(life, lines, replies):
    """Sends lines over a connection of their own, and compares the replies."""
    same("replies", Client(life.port).told(lines), replies)


def until(life, line, reply, first):
    """Asks a question until it has this reply; before that it may have the first one."""
    patience = time.monotonic() + LONG
    with client_of(life) as client:
        seen = client.ask(line)
        while seen == first and time.monotonic() < patience:
            time.sleep(PAUSE)
            seen = client.ask(line)
    same("reply", seen, reply)
