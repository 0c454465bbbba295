"""Kills the program again and again while clients talk to it, and sees that all lives are one.

A kill leaves all that the process wrote, synced or not. So this check finds replies that are sent before the write,
and restarts that read a journal in a wrong way. Only crash images find a missing sync.
"""

import contextlib
import os
import pathlib
import tempfile
import threading
import time

from journals.changes import History, history_of, life_of, lines_after_first, whole_text
from journals.crashes import NAME, make_shared
from journals.lives import asked, client_of, compare, kill_in_the_start, living
from journals.shortening import see_rewriting, see_start
from journals.talkers import Grower, Talker, counts_of, talk_all
from serving import Differs, was_killed

CLIENTS = 16
# How many lives one journal has.
LIVES = 25
# After the first life, and after each fifth behind it, one more is killed in its start, at most this many seconds after
# it was begun.
IN_THE_START, START = 5, 0.03
# The longest that clients talk in a life, in seconds.
LONGEST = 0.6
# In the first life, and in one of so many others, a client has the journal grow by changes that a start can spare, and
# few others talk.
GROWING, FEW = 4, 3
# How many seconds pass between two looks whether the service has rewritten the journal.
LOOK = 0.002


@contextlib.contextmanager
def watching(file):
    """Watches a journal while its service runs. The value is a list, which gets the text of each file that another took
    the place of."""
    texts, faults, is_over = [], [], threading.Event()

    def watch_all():
        try:
            watch()
        except Exception as fault:  # (whatever it is: nobody else hears of it)
            faults.append(fault)

    def watch():
        found = open(file, "rb")
        while True:
            was_over = is_over.is_set()
            if os.fstat(found.fileno()).st_ino != os.stat(file).st_ino:
                texts.append(whole_text(found.read()))
                found.close()
                found = open(file, "rb")
            elif was_over:
                break
            else:
                time.sleep(LOOK)
        found.close()

    thread = threading.Thread(target=watch_all)
    thread.start()
    try:
        yield texts
    finally:
        is_over.set()
        thread.join()
    if faults:
        raise Differs(f"the journal was not watched to the end: {faults[0]!r}")


class Chain:
    """The lives of one journal, one after another."""

    def __init__(self, program, folder, dice):
        self.program, self.file, self.dice = program, pathlib.Path(folder, NAME), dice
        self.history, self.text, self.leaders, self.replies = History(), b"", {}, 0
        self.shortened, self.rewritten = 0, 0
        self.talkers = [Talker(number, dice.random()) for number in range(CLIENTS)]
        self.grower = Grower(CLIENTS, dice.random())

    def die_in_the_start(self):
        """A life that is killed in its start, or soon after it. Members may come to know leaders in it."""
        kill_in_the_start(self.program, self.file, self.dice.uniform(0, START))
        self.begin(whole_text(self.file.read_bytes()))

    def begin(self, text):
        """Takes what a start left in a text: all changes that it found, or fewer that lead to the same groups. The rest
        of the text is taken too. The answer is how many changes the start left."""
        begun = see_start(self.text, text) if life_of(text) > life_of(self.text) else self.text
        if not text.startswith(begun):
            raise Differs("a life that was killed in its start changed the text of the journal")
        if lines_after_first(begun) != lines_after_first(self.text):
            earlier, self.history = self.history, history_of(begun)
            self.shortened += 1
            if earlier.last_groups() != self.history.last_groups():
                raise Differs("a start changed groups")
        count, self.text = self.history.count, text
        self.history.read(text)
        return count

    def live(self):
        """A life in which clients talk until it is killed."""
        with living(self.program, self.file, "--sessions", "64") as life:
            with client_of(life) as client:
                compare(lambda questions: asked(client, questions), self.history, self.history.count)
            logs = [make_shared(life.port)]
            is_growing = not self.text or self.dice.randrange(GROWING) == 0
            talkers = [*self.talkers[:FEW], self.grower] if is_growing else self.talkers
            with watching(self.file) as texts:
                talk_all(talkers, life.port, lambda _: False, lambda: self.kill_soon(life))
        self.explain(logs + [log for talker in talkers for log in talker.take_logs()], texts)

    def kill_soon(self, life):
        """Kills a life some time from now. It must be there until then."""
        time.sleep(self.dice.uniform(0, LONGEST))
        life.run.kill()
        was_killed(life.run)

    def explain(self, logs, texts):
        """Sees that the journal of a life explains each reply of that life, and names no second leader. `texts` are those
        that the service has replaced."""
        texts = [*texts, whole_text(self.file.read_bytes())]
        count = self.begin(texts[0])
        for text in texts[1:]:
            self.history.go_on_after(see_rewriting(self.text, text))
            self.history.read(text)
            self.text, self.rewritten = text, self.rewritten + 1
        for log in logs:
            counts_of(self.history, log.asked, log.replies, count)
            self.replies += len(log.replies)
            for (name, _), reply in zip(log.asked, log.replies):
                self.hear(name, reply)
        self.history.forget()

    def hear(self, name, reply):
        """Takes a reply, and sees that no other member was named the leader of a term in any life."""
        first, *rest = reply.split(" ")
        told = [rest] if first == "leader" else [word.split(":") for word in rest] if first == "terms" else []
        for term, leader in told:
            other = self.leaders.setdefault((name, term), leader) if leader != "-" else leader
            if other != leader:
                raise Differs(f"{name}: term {term} is led by {other} and by {leader}")

    def end(self):
        """Sees that one more life names each leader that was named in any life."""
        names = sorted({name for name, _ in self.leaders})
        with living(self.program, self.file) as life, client_of(life) as client:
            terms = dict(zip(names, asked(client, [(name, ("terms",)) for name in names])))
        for (name, term), leader in self.leaders.items():
            if f"{term}:{leader}" not in terms[name].split(" "):
                raise Differs(f"{name}: that {leader} leads term {term} was told, and is gone")


def kill_often(program, dice, lives, seconds):
    """Kills `lives` lives, and goes on until `seconds` seconds are over. The answer is a line about them."""
    until, count, replies, leaders, shortened, rewritten = time.monotonic() + seconds, 0, 0, 0, 0, 0
    while count < lives or time.monotonic() < until:
        with tempfile.TemporaryDirectory() as folder:
            chain = Chain(program, folder, dice)
            for number in range(min(LIVES, max(lives - count, 2)) if not seconds else LIVES):
                chain.live()
                if number % IN_THE_START == 0:
                    chain.die_in_the_start()
                count += 1
            chain.end()
        replies, leaders = replies + chain.replies, leaders + len(chain.leaders)
        shortened, rewritten = shortened + chain.shortened, rewritten + chain.rewritten
    if not replies or not leaders:
        raise Differs(f"in {count} lives there were {replies} replies, and {leaders} leaders were named")
    return (f"{count} lives were killed under {CLIENTS} clients, {shortened} starts shortened the journal and it was rewritten {rewritten} times:"
            f" {replies} replies, {leaders} leaders")
