"""Crash images: lives of the program that are recorded, and what a restart finds after a crash at any moment."""

import collections
import contextlib
import pathlib
import subprocess
import tempfile
from typing import NamedTuple

from journals.changes import KINDS, History, history_of, life_of, line_of, whole_text
from journals.lives import asked, client_of, compare, go_on, listing, living
from journals.recording import Disk, read_recording
from journals.shortening import see_rewriting, see_start
from journals.talkers import SHARED, Grower, Log, Talker, counts_of, talk_all
from serving import Client, Differs, same

NAME = "ring.journal"
CLIENTS = 8
# How many replies each client waits for in a life, and the one by which the file grows past its zeros, and so long that
# the service rewrites it. A start and a rewriting can spare most changes of that one.
REPLIES, GROWING = 150, 7000
LIVES = 3
# The journal of the next life is one of some images of moments in the last part of this one.
SOME, LAST_PART = 400, 0.9
# Of each 4 images, the groups of one go on: their terms are decided, and one more is started.
GOING_ON = 4
# How many images wait for a restart at a time.
AT_ONCE = 64


class Epoch(NamedTuple):
    """A text that the journal had in a life until another took its place: its begin, and the whole of it. `spared` is
    the number of changes of the life that it has in fewer lines, less these lines."""

    begun: bytes
    text: bytes
    spared: int


class Recorded:
    """A recorded life: the files that it began with, its events, and its journal. `found` is the history of the text
    that it found, `before`. `history` is that of its own texts, which have `count` changes at first. There is one text,
    and one more after each time that the service rewrote it. A reply *needs* a number of these changes: it is right
    after them, and not before."""

    def __init__(self, files, events, before, texts):
        self.files, self.events, self.before = files, events, before
        begun = see_start(before, texts[0])
        self.found, self.history = history_of(before), history_of(begun)
        self.count = self.history.count
        if self.found.last_groups() != self.history.last_groups():
            raise Differs("a start changed groups")
        self.history.read(texts[0])
        self.epochs = [Epoch(begun, texts[0], 0)]
        for earlier, text in zip(texts, texts[1:]):
            begun = see_rewriting(earlier, text)
            self.epochs.append(Epoch(begun, text, self.history.count - changes_in(begun)))
            self.history.go_on_after(begun)
            self.history.read(text)
        # of each port, the replies that were sent to it: how many changes each needs, and its line
        self.replies = {}

    def hear(self, log):
        """Takes the replies that were sent over a connection, and sees that the client received no others."""
        replies = [reply.decode() for reply in sent_text(self.events, log.port).split(b"\n")[:-1]]
        if replies[:len(log.replies)] != log.replies:
            raise Differs("the recording does not have the replies that a client received")
        counts = counts_of(self.history, log.asked, replies, self.count)
        lines = [line_of(name, command)[:-1].decode() for name, command in log.asked]
        self.replies[log.port] = list(zip(counts, lines))

    def is_shortened(self):
        """Returns whether the life began with fewer changes than it found."""
        return self.count < self.found.count

    def of_text(self, text):
        """Returns the history of a text that the journal had before or in this life, and the number of its changes. These
        are the changes of the life that its lines stand for."""
        if text == self.before:
            return self.found, changes_in(text)
        spared = [it.spared for it in self.epochs if it.text.startswith(text) and text.startswith(it.begun)]
        return self.history, changes_in(text) + max(spared, default=0)

    def kept(self, text):
        """Returns how many changes of this life such a text has. The text that was found has those of the begin."""
        return self.count if text == self.before else self.of_text(text)[1]

    def needed_before(self, events):
        """Returns for each event, and for the end, the most changes that a reply before it needs, and the line of that
        reply. A reply counts from the begin of the call that sends its LF."""
        sent, most = collections.Counter(), (self.count, "an earlier life")
        needed = [most]
        for event in events:
            if event.kind == "M" and event.key in self.replies:
                first = sent[event.key]
                sent[event.key] += sent_part(event).count(b"\n")
                most = max([most, *self.replies[event.key][first:sent[event.key]]], key=lambda it: it[0])
            needed.append(most)
        return needed


def changes_in(text):
    """Returns how many changes the lines of a text are."""
    return max(text.count(b"\n") - 1, 0)


def sent_text(events, port):
    """Returns the bytes that were sent to a port."""
    return b"".join(sent_part(event) for event in events if event.kind == "M" and event.key == port)


def sent_part(event):
    """Returns the bytes that a client may have received of a call that sends."""
    return event.data if event.done is None else event.data[:max(event.done, 0)]


def record_life(program, library, folder, files, before, seed):
    """Runs the program over these files with clients, and records it. `before` is the text of the changes that are on
    the disk."""
    for name, data in files.items():
        (folder / name).write_bytes(data)
    recording, file = folder / "recording", folder / NAME
    environment = {"LD_PRELOAD": str(library), "RECORD_TO": str(recording), "RECORD_FILE": str(file)}
    talkers = [*(Talker(number, seed) for number in range(CLIENTS)), Grower(CLIENTS, seed)]
    with living(program, file, "--sessions", "64", environment=environment) as life:
        maker = make_shared(life.port)
        talk_all(talkers, life.port, lambda it: it.count() >= (GROWING if isinstance(it, Grower) else REPLIES))
    events = read_recording(recording)
    recorded = Recorded(files, events, before, see_all(folder, files, events))
    for log in [maker, *(log for talker in talkers for log in talker.logs)]:
        recorded.hear(log)
    return recorded


def make_shared(port):
    """Creates the groups that all clients share, if there are none. The answer is what was asked and replied."""
    client = Client(port)
    log = Log(client.socket.getsockname()[1])
    log.asked = [(name, ("create", kind)) for name, kind in zip(SHARED, KINDS)]
    log.replies = asked(client, log.asked)
    client.close()
    return log


def see_all(folder, files, events):
    """Sees that the files are as the recording says: it has all calls that changed them. A call that never ended was
    carried out or not. The answer is the texts that the journal had in this life, one after another, with such calls."""
    whole, without = Disk(files), Disk(files)
    for event in events:
        whole.apply(event)
        if event.done is not None or not event.kind.isupper():
            without.apply(event)
    for name in {*files, *whole.now()}:
        path = folder / name
        found = path.read_bytes() if path.exists() else None
        if found not in (whole.now().get(name), without.now().get(name)):
            raise Differs(f"the recording does not have all calls that changed {name}")
    # the start replaced the first file, if there was one
    replaced = [data for name, data in whole.replaced if name == NAME][1 if NAME in files else 0:]
    return [whole_text(data) for data in [*replaced, whole.now()[NAME]]]


class Image(NamedTuple):
    """The files that a crash leaves, the history that its journal is of, how many changes it has, and how many of the
    life's own that makes. `needed` has the most changes that a reply before the crash needs, and the line of that
    reply."""

    files: dict
    history: History
    count: int
    kept: int
    needed: tuple
    moment: int

    def is_torn(self):
        """Returns whether there is something between the whole lines and the zeros."""
        found = self.files.get(NAME, b"")
        return len(found.rstrip(b"\0")) > len(whole_text(found))


def draw_images(life, events, moments, dice):
    """Yields an image for each of these moments, which rise: the number of events that are over."""
    disk, over, needed = Disk(life.files), 0, life.needed_before(events)
    for moment in moments:
        for event in events[over:moment]:
            disk.apply(event)
        over = moment
        files = disk.draw(dice)
        text = whole_text(files.get(NAME, b""))
        yield Image(files, *life.of_text(text), life.kept(text), needed[moment], moment)


def judge(life, image, restart):
    """Sees that a restart over an image finds all changes that a reply needs, and none in part."""
    needed, line = image.needed
    if image.kept < needed:
        raise Differs(f"a crash before event {image.moment} leaves {image.kept} changes, and the reply to {line!r}"
                      f" needs {needed}")
    restart(life, image)


def restart_service(program):
    """Returns a restart that serves clients over an image, and goes on with some of them."""
    def restart(life, image):
        with image_folder(image) as file:
            with living(program, file) as run, client_of(run) as client:
                compare(lambda questions: asked(client, questions), image.history, image.count)
                if image.moment % GOING_ON == 0:
                    go_on(client, image.history, image.count)
            see_start(whole_text(image.files.get(NAME, b"")), whole_text(file.read_bytes()))
    return restart


def restart_listing(program):
    """Returns a restart that lists an image by `ringd journal`, which changes nothing."""
    def restart(life, image):
        with image_folder(image) as file:
            if file.exists():
                ran = listing(program, file)
                wanted = listing_of(image.history, image.count, image.files[NAME])
                same("what is listed", (ran.stdout, ran.stderr, ran.returncode), (wanted, b"", 0))
                same("the file after it was listed", file.read_bytes(), image.files[NAME])
    return restart


def restart_both(program):
    """Returns a restart that lists an image, and then serves clients over it."""
    both = restart_listing(program), restart_service(program)

    def restart(life, image):
        for one in both:
            one(life, image)
    return restart


@contextlib.contextmanager
def image_folder(image):
    """The files of an image in a new folder; the value is the path of the journal."""
    with tempfile.TemporaryDirectory() as folder:
        write_image(image, folder)
        yield pathlib.Path(folder, NAME)


def write_image(image, folder):
    """Writes the files of an image into a folder."""
    for name, data in image.files.items():
        pathlib.Path(folder, name).write_bytes(data)


def listing_of(history, count, found):
    """Returns what `ringd journal` prints of a file whose lines stand for `count` changes of its life."""
    lines = []
    for name in history.names.at(count):
        group = history.group_at(name, count)
        lines += [f"group {name} {group.kind}", f"  {group.reply(('members',))}", f"  {group.reply(('terms',))}"]
    end = len(whole_text(found))
    torn = max(len(found.rstrip(b"\0")) - end, 0)
    lines.append(f"whole: life {life_of(whole_text(found))}, {changes_in(whole_text(found))} changes end at byte {end},"
                 f" {torn} bytes of a torn tail are dropped")
    return "\n".join([*lines, ""]).encode()


def moments_of(life, events, count, dice):
    """Returns `count` moments in rising order. One in four is in the start of the life, which has few of them, so each
    has its turn. The others are drawn by chance. Most are while a write or a move of a name is not on the disk for
    good, and some of those while the file grows by zeros."""
    disk, unsure, growing = Disk(life.files), [], []
    for moment, event in enumerate(events, 1):
        disk.apply(event)
        unsure += [moment] if disk.is_unsure() else []
        growing += [moment] if disk.is_growing() else []
    first = [event.kind for event in events].index("M")
    others = [unsure, unsure, growing or unsure, unsure, unsure, range(len(events) + 1)]
    in_turn = [at % (first + 1) for at in range(count // 4)]
    return sorted(in_turn + [dice.choice(others[at % len(others)]) for at in range(count - len(in_turn))])


def judge_all(life, restart, images, dice, pool):
    """Has a restart over many images of a life. The answer is how many of them had a torn end. An image that is
    reported is left in a folder."""
    def one(image):
        try:
            judge(life, image, restart)
        except (Differs, OSError, subprocess.TimeoutExpired) as fault:
            folder = tempfile.mkdtemp(prefix="crash-image-")
            write_image(image, folder)
            raise Differs(f"{fault}; the image is in {folder}") from None

    runs, torn = collections.deque(), 0
    for image in draw_images(life, life.events, moments_of(life, life.events, images, dice), dice):
        torn += image.is_torn()
        runs.append(pool.submit(one, image))
        if len(runs) > AT_ONCE:
            runs.popleft().result()
    for run in runs:
        run.result()
    return torn


def next_files(life, dice):
    """Returns the files of the next life: an image of a late moment of this one, with a torn end if there is one."""
    moments = moments_of(life, life.events, SOME, dice)
    late = [moment for moment in moments if moment > LAST_PART * len(life.events)]
    images = list(draw_images(life, life.events, late, dice))
    return dice.choice([image for image in images if image.is_torn()] or images).files


def check_images(program, library, images, restart, dice, pool, lives=LIVES):
    """Records lives, one after a crash of the other, and has a restart over images of each. The answer is a line about
    them, and the last life whose start shortened the journal, which was rewritten later."""
    files, before, torn, replies, shortened, rewritten = {}, b"", 0, 0, [], 0
    for number in range(lives):
        with tempfile.TemporaryDirectory() as folder:
            life = record_life(program, library, pathlib.Path(folder), files, before, dice.random())
        torn += judge_all(life, restart, -(-images // lives), dice, pool)
        replies += sum(map(len, life.replies.values()))
        shortened += [life] if life.is_shortened() and len(life.epochs) > 1 else []
        rewritten += len(life.epochs) - 1
        files = next_files(life, dice)
        before = whole_text(files[NAME])
    if not shortened:
        raise Differs("no start shortened a journal that was rewritten later")
    return (f"{-(-images // lives) * lives} crash images of {lives} lives under {CLIENTS} clients, {torn} of them with"
            f" a torn end, after {len(shortened)} starts that shortened the journal and {rewritten} times that it was"
            f" rewritten: each of {replies} replies holds after each crash"), shortened[-1]
