"""Growth refused in turn in `ringd replay`, over the files of rows."""

from importlib.machinery import SourceFileLoader
import itertools
import re

from sweep import Bad, NO_MEMORY, ROOT, run
from table import Sweep, sweep_all

ROWS = SourceFileLoader("check_rows", str(ROOT / "tests/check-rows")).load_module()
DRAIN = re.compile(rb"drain (\S+) ([0-9]+)")
STARVED = re.compile(rb"drained ([0-9]+) left [0-9]+ no-memory")
DRAINED = re.compile(rb"drained ([0-9]+) left ([0-9]+)")

# An election of LeLann's on the ring 3, 1, 2, whose first delivery makes a list grow.
BEGIN = [(b"create a lelann", b"ok"), (b"join a 3", b"ok"), (b"join a 1", b"ok"), (b"join a 2", b"ok"),
         (b"start a", b"term 1")]
# What is asked then, and the replies where the growth of that delivery is refused.
FIRST_DELIVERY = {
    "alone": [(b"deliver a 3 left", b"no no-memory"), (b"pending a", b"pending 3"), (b"deliver a 3 left", b"moved"),
              (b"drain a 100", b"drained 11 left 0")],
    "of a drain": [(b"drain a 100", b"drained 0 left 3 no-memory"), (b"drain a 100", b"drained 12 left 0")],
}
# Of a file of rows each growth before this one is refused, and then each so many further.
EACH, STRIDE = 1000, 7


class Lines:
    """A file of rows: the lines of a run, and the replies that it has to give."""

    def __init__(self, path):
        rows = ROWS.rows_of(path)
        self.name = path.stem
        self.commands = [ROWS.ESCAPE.sub(ROWS.unescaped, row.command) for row in rows]
        self.replies = [row.reply for row in rows]


def text(lines):
    return b"".join(line + b"\n" for line in lines)


def asked_again(lines, place, reply):
    """The lines and replies of a run in which the line at this place got this reply, which says that
    memory was refused, and is then asked again: the rest of a drain, or else the line itself."""
    command, expected = lines.commands[place], lines.replies[place]
    starved, drain, whole = STARVED.fullmatch(reply), DRAIN.fullmatch(command), DRAINED.fullmatch(expected)
    if starved and drain and whole:
        done = int(starved[1])
        again = b"drain %s %d" % (drain[1], int(drain[2]) - done)
        then = b"drained %d left %s" % (int(whole[1]) - done, whole[2])
    elif reply == b"no no-memory":
        again, then = command, expected
    else:
        raise Bad(f"line {place + 1} is answered {reply!r} and not {expected!r}")
    commands = lines.commands[: place + 1] + [again] + lines.commands[place + 1 :]
    replies = lines.replies[:place] + [reply, then] + lines.replies[place + 1 :]
    return commands, replies


def first_difference(replies, expected):
    """The first place at which the replies differ from those expected; none where none does."""
    for place, reply in enumerate(expected):
        if place >= len(replies) or replies[place] != reply:
            return place
    return None


def refuse(library, program, lines, growth):
    """One run in which this growth is refused: whether it was told, or `None` where no such growth is made."""
    command = [program, "replay"]
    ran = run(library, command, text(lines.commands), growth=growth)
    if not ran.told:
        if ran.status != 0 or ran.out != text(lines.replies):
            raise Bad(f"{lines.name}: a run without refusals is answered otherwise")
        return None
    if ran.status == 1 and ran.err == NO_MEMORY and ran.out == b"":
        return True
    replies = ran.out.split(b"\n")[:-1]
    place = first_difference(replies, lines.replies)
    if ran.status != 0 or ran.err:
        raise Bad(f"{lines.name}: growth {growth}: status {ran.status}, {ran.err!r}")
    if place is None:
        return False
    if place >= len(replies):
        raise Bad(f"{lines.name}: growth {growth}: line {place + 1} has no reply")
    commands, expected = asked_again(lines, place, replies[place])
    again = run(library, command, text(commands), growth=growth)
    if again.status != 0 or again.out != text(expected):
        raise Bad(f"{lines.name}: growth {growth}: otherwise after line {place + 1} was asked again")
    return True


def starves(library, program, asked, growth):
    """One run of the election in which this growth is refused: whether it is that of the first delivery, which is asked
    for alone or in a drain, and all replies are as written; `None` where no such growth is made."""
    commands, replies = zip(*BEGIN, *asked)
    ran = run(library, [program, "replay"], text(commands), growth=growth)
    if not ran.told:
        return None
    return ran.status == 0 and not ran.err and ran.out == text(replies)


def sweep_lines(pool, library, program, files, is_full):
    for file in files:
        sweep = Sweep(f"growth, rows of {file.name}")
        numbers = itertools.count(1) if is_full else itertools.chain(range(1, EACH), itertools.count(EACH, STRIDE))
        sweep_all(pool, sweep, lambda n: refuse(library, program, file, n), numbers)
        yield sweep
    for name, asked in FIRST_DELIVERY.items():
        sweep = Sweep(f"growth, the first delivery {name}")
        sweep_all(pool, sweep, lambda n: starves(library, program, asked, n), itertools.count(1))
        yield sweep
