"""Deliberate mistakes, each of which the check of crash images must report.

The recording of a life is doctored as if the program had made the mistake, or an image is read in a wrong way.
"""

from typing import NamedTuple

from journals.changes import after_words, answer, whole_text
from journals.crashes import NAME, changes_in, draw_images, judge, moments_of
from journals.lives import compare
from journals.recording import FOLDER, Disk, Event
from serving import Differs

# How many images are drawn at each moment after a mistake, and of how many moments.
DRAWS, MOMENTS = 24, 12
# How many images are read in a wrong way.
READ = 500


class Sync(NamedTuple):
    """A sync: the places of its begin and its end, what it is of, and how many changes were on the disk before."""

    begin: int
    end: int
    name: str
    kept: int


def ends_of(events, kind):
    """Returns the place of the end of each call of a kind, by that of its begin."""
    begun, ends = {}, {}
    for at, event in enumerate(events):
        if event.kind == kind:
            begun[event.thread] = at
        elif event.kind == kind.lower():
            ends[begun.pop(event.thread)] = at
    return ends


def syncs_of(life, events, name):
    """Returns the syncs of the folder, or of the file that has this name when they begin."""
    disk, ends, found = Disk(life.files), ends_of(events, "S"), []
    for at, event in enumerate(events):
        if at in ends:
            file = disk.by_inode.get(event.key)
            names = [it for it, other in disk.names.items() if other is file] or [FOLDER]
            kept = disk.kept.get(NAME)
            count = life.kept(whole_text(bytes(kept.synced))) if kept else 0
            found += [Sync(at, ends[at], name, count)] if name in names else []
        disk.apply(event)
    return found


def rename_of(events, which):
    """Returns the places of the begin and the end of a rename: 0 for that of the start, -1 for the last one."""
    return sorted(ends_of(events, "R").items())[which]


def synced_before(life, events, begin):
    """Returns the sync of the new file before its rename, which begins there."""
    return [sync for sync in syncs_of(life, events, NAME + ".new") if sync.end < begin][-1]


def with_reply(life, events):
    """Returns a sync of the journal, and the places of the begin and the end of the first reply that needs more changes
    than were kept before that sync. Between them are no other sync and no other reply to its client."""
    needed, ends, syncs = life.needed_before(events), ends_of(events, "M"), syncs_of(life, events, NAME)
    for sync, following in zip(syncs[1:], syncs[2:]):
        send = next((at for at in sorted(ends) if needed[at + 1][0] > sync.kept), len(events))
        others = [events[at].key for at in ends if sync.begin < at < send]
        if send < following.end and events[send].key not in others:
            return sync, (send, ends[send])
    raise Differs("no reply in the recording needs a sync")


def moved(events, places, to):
    """Returns the events with those at some places moved before the one at `to`."""
    return without(events[:to], places) + [events[at] for at in places] + [
        event for at, event in enumerate(events[to:], to) if at not in places]


def without(events, places):
    """Returns the events without those at some places."""
    return [event for at, event in enumerate(events) if at not in places]


def reply_before_its_sync(life, events):
    sync, send = with_reply(life, events)
    return moved(events, send, sync.begin), sync.begin


def sync_left_out(life, events):
    sync, (begin, _) = with_reply(life, events)
    # the moments about the reply: other clients may be sent many before it, if the sync takes long
    return without(events, (sync.begin, sync.end)), begin - 3


def rename_before_the_sync_of_the_new_file(life, events, which=0):
    begin, end = rename_of(events, which)
    sync = synced_before(life, events, begin)
    return moved(events, (sync.begin, sync.end), end + 1), begin - 2


def rename_before_the_sync_while_the_service_runs(life, events):
    return rename_before_the_sync_of_the_new_file(life, events, -1)


def sync_of_the_new_file_left_out(life, events, which=0):
    begin, _ = rename_of(events, which)
    sync = synced_before(life, events, begin)
    return without(events, (sync.begin, sync.end)), begin - 2


def sync_left_out_while_the_service_runs(life, events):
    return sync_of_the_new_file_left_out(life, events, -1)


def sync_of_the_folder_left_out(life, events):
    sync = syncs_of(life, events, FOLDER)[-1]
    rest = without(events, (sync.begin, sync.end))
    return rest, len(rest) - MOMENTS


def old_file_removed_before_the_rename(life, events, which=0):
    begin, _ = rename_of(events, which)
    thread = events[begin].thread
    removal = [Event(kind, thread, 0, 0, NAME.encode() if kind == "U" else b"", 0) for kind in "Uu"]
    return events[:begin] + removal + events[begin:], begin


def old_file_removed_while_the_service_runs(life, events):
    return old_file_removed_before_the_rename(life, events, -1)


DOCTORED = [reply_before_its_sync, sync_left_out, rename_before_the_sync_of_the_new_file,
            rename_before_the_sync_while_the_service_runs, sync_of_the_new_file_left_out,
            sync_left_out_while_the_service_runs, sync_of_the_folder_left_out, old_file_removed_before_the_rename,
            old_file_removed_while_the_service_runs]


def as_it_is(found):
    return whole_text(found)


def zero_taken_for_text(found):
    return found.replace(b"\0", b"")


def torn_line_taken(found):
    return found[:(found + b"\0").index(b"\0")]


def last_line_dropped(found):
    return b"".join(whole_text(found).splitlines(True)[:-1])


WRONG_READINGS = [zero_taken_for_text, torn_line_taken, last_line_dropped]


def restart_by(reading):
    """Returns a restart that shows what a reading of the journal's file gives. A line that spells no change that may
    come there is skipped. All readings agree on all whole lines except the last. They agree on that one too if it is no
    change of the life, as when the service has just rewritten the text."""
    def restart(life, image):
        text = whole_text(image.files.get(NAME, b""))
        last = 0 if text in [it.begun for it in life.epochs[1:]] else 1
        same = max(image.count - last, 0)
        groups = {name: image.history.group_at(name, same) for name in image.history.names.at(same)}
        there = max(changes_in(text) - last, 0)
        for line in reading(image.files.get(NAME, b"")).splitlines()[1 + there:]:
            words = line.partition(b" #")[0].decode().split(" ")
            name = words[1] if len(words) > 1 else ""
            group = after_words(groups.get(name), words)
            if group:
                groups[name] = group
        compare(lambda questions: [answer(name, groups.get(name) if name else groups, command)
                                   for name, command in questions], image.history, image.count)
    return restart


def is_reported(life, events, moments, restart, dice):
    """Returns whether one of the images of these moments is reported."""
    try:
        for image in draw_images(life, events, moments, dice):
            judge(life, image, restart)
    except Differs:
        return True
    return False


def see_mistakes(life, dice):
    """Sees that each mistake is reported, and that a right reading of what the program left is not."""
    right = restart_by(as_it_is)
    moments = moments_of(life, life.events, READ, dice)
    if is_reported(life, life.events, moments, right, dice):
        raise Differs("an image is reported that was read as it is")
    for reading in WRONG_READINGS:
        if not is_reported(life, life.events, moments, restart_by(reading), dice):
            raise Differs(f"a mistake is not reported: {reading.__name__}")
    for mistake in DOCTORED:
        events, first = mistake(life, life.events)
        near = [moment for moment in range(max(first, 0), min(first + MOMENTS, len(events)) + 1) for _ in range(DRAWS)]
        if not is_reported(life, events, near, right, dice):
            raise Differs(f"a mistake is not reported: {mistake.__name__}")
    return len(WRONG_READINGS) + len(DOCTORED)
