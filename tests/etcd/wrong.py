"""Wrong answers of etcd: `ringd` ends with one line or goes on waiting, and what it told is in the journal."""

import contextlib
import tempfile

from etcd.judging import judge, told_by
from etcd.runs import Run
from etcd.talking import ChaosTalker
from etcd_standin import Keys, Standin
from journals.changes import line_of
from serving import Differs, short

# Each kind of wrong answer, and how many of it are given.
WRONG = {"lost": 100, "dropped": 100, "500": 100, "cut": 100, "other": 100, "text": 100, "foreign": 100,
         "no leader": 100, "changed": 2000}
# Which part of the answers is wrong.
RATE = 0.3
# How many processes may end one after another before any reply.
TRIES = 20


def answers(program):
    """Tries each kind of wrong answers. The answer is a line about it."""
    lines = [answered(program, kind, count) for kind, count in WRONG.items()]
    return "; ".join(lines)


def answered(program, kind, count):
    """Has clients talk to one process after another, until `count` wrong answers of a kind were given."""
    keys, told, ends, barren = Keys(), [], [], 0
    them = [Standin(keys, seed=number, faults=(kind,)) for number in range(3)]
    talker = ChaosTalker(1, kind)
    while (wrong := sum(it.told.get(kind, 0) for it in them)) < count:
        pairs, texts = lived(program, them, talker, lambda: sum(it.told.get(kind, 0) for it in them) >= count)
        ends += texts
        told += told_by(pairs)
        barren = 0 if pairs else barren + 1
        if barren == TRIES:
            raise Differs(f"{kind}: {TRIES} processes told nothing, the last one ended by {short(texts)}")
    for it in them:
        it.shutdown()
    if not told:
        raise Differs(f"{kind}: no process told anything, so nothing was compared")
    line = judge("wrong", list(keys.events), told)
    return f"{wrong} answers {kind!r}: {line}, ended by {sorted(set(ends)) or 'nothing'}"


def lived(program, them, talker, is_over):
    """A life of a process, until it ends or it is over. The answer is what it told, and by which lines it ended."""
    for it in them:
        # the first answers say which cluster it is
        it.rate = 0 if it.faults == ("foreign",) else RATE
    journal = f"etcd://{','.join(it.place() for it in them)}/wrong"
    with tempfile.TemporaryDirectory() as folder:
        run = Run(program, folder, journal, "--places")
        try:
            with contextlib.suppress(Differs):
                run.wait_until_it_listens()
            pairs = talked(run, them, talker, is_over) if run.listens() else []
            return pairs, [] if is_over() and not run.has_ended() else ends_of(run)
        finally:
            run.end()


def talked(run, them, talker, is_over):
    """What a process told, until its end."""
    for it in them:
        it.rate = RATE
    pairs = []
    with contextlib.suppress(ConnectionError), contextlib.closing(run.client()) as client:
        while not is_over():
            asked = talker.batch()
            client.send(b"".join(line_of(*it) for it in asked))
            for it in asked:
                line = client.line().decode()
                if not line.endswith("\n"):
                    return pairs
                pairs.append((it, line[:-1]))
    return pairs


def ends_of(run):
    """By which line a process ended: one, with status 1."""
    status, texts = run.wait_for_end()
    if status != 1 or len(texts) != 1 or not texts[0].startswith("ringd: journal "):
        raise Differs(f"a wrong answer ends it by status {status} and {short(texts)}")
    return texts
