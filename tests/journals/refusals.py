"""Checks of the files that are refused as a journal, one by one. The program prints one line about each, and does not
change it. `ringd journal` refuses the same files in the same words."""

import os
import random
import stat

from checking import listed
from journals.changes import MOST_LIVES, WORDS, first_line, marked, text_of_changes
from journals.lives import AHEAD, Life, client_of, listing, living
from serving import Differs, same

CHECKS, check = listed()
NOBODY = 65534
IN_USE = b"ringd: journal in use\n"
UNREADABLE = b"ringd: journal unreadable\n"
NOT_A_FILE = b"ringd: journal not a file\n"
VERSION = b"ringd: journal of another version\n"
FAILED = b"ringd: journal failed\n"
UNWRITTEN = b"ringd: write failed\n"
BAD = b"ringd: journal bad at byte "
NO_LIFE = b"ringd: journal has no life left\n"
# What is said of the file itself, and so of its listing too.
OF_FILE = (NOT_A_FILE, VERSION, NO_LIFE)
CHANGES = [b"create a chang", b"join a 5/9", b"join a 7", b"leave a 7", b"join a 8", b"start a", b"know a 1 8 5/9",
           b"know a 1 5/9 5/9", b"create b peterson", b"start a", b"join b 1", b"leave a 5"]


def bad_at(place):
    """The line about a byte at which a journal is bad."""
    return BAD + b"%d\n" % place


def contents(folder):
    """Returns what is in a folder, without configurations and the lock."""
    return {path.name: (stat.S_IFMT(path.lstat().st_mode), path.read_bytes() if path.is_file() else None)
            for path in folder.iterdir() if path.suffix not in (".toml", ".lock")}


def refused(program, file, error, what="", **given):
    """Sees that the program ends with this line before it listens, and changes no file."""
    folder = given.get("folder") or file.parent
    before = contents(folder)
    life = Life(program, file, **given)
    life.kill()
    same(f"{what}: standard output, standard error and status", (life.out, life.error, life.run.returncode),
         (b"", error, 1))
    if error in OF_FILE or error.startswith(BAD):
        refused_listing(program, file, error, what)
    if contents(folder) != before:
        raise Differs(f"{what}: a file was changed")


def refused_listing(program, file, error, what="", **given):
    """Sees that `ringd journal` ends with this line, and lists nothing."""
    ran = listing(program, file, **given)
    same(f"{what}: the listing, standard error and status", (ran.stdout or b"", ran.stderr, ran.returncode),
         (b"", error, 1))


@check
def a_second_process_is_refused(program, file):
    with living(program, file) as life, client_of(life) as client:
        same("reply", client.ask(b"create a chang\n"), b"ok\n")
        refused(program, file, IN_USE)
        same("reply", client.ask(b"join a 5\n"), b"ok\n")
    with living(program, file) as life, client_of(life) as client:
        same("reply", client.ask(b"members a\n"), b"members 5\n")


@check
def a_name_that_is_no_file_is_refused(program, file):
    other = file.with_name("other")
    other.write_bytes(text_of_changes(CHANGES))
    makers = {"a folder": file.mkdir, "a pipe": lambda: os.mkfifo(file), "a link": lambda: file.symlink_to(other),
              "a link to nothing": lambda: file.symlink_to("nothing"),
              "a link to itself": lambda: file.symlink_to(file)}
    for what, make in makers.items():
        make()
        refused(program, file, NOT_A_FILE, what)
        (file.rmdir if what == "a folder" else file.unlink)()


@check
def a_folder_that_is_missing_is_refused(program, file):
    refused(program, file.parent / "none" / file.name, UNREADABLE, folder=file.parent)
    refused(program, file.parent / "none" / ".." / file.name, UNREADABLE, folder=file.parent)
    refused(program, file.parent / ("x" * 300), UNREADABLE, folder=file.parent)


@check
def a_listing_needs_a_file(program, file):
    for name in (file, file.parent / "none" / file.name, file.parent / ("x" * 300), ""):
        refused_listing(program, name, UNREADABLE, name)
    file.write_bytes(text_of_changes(CHANGES))
    file.chmod(0)
    if not os.getuid():
        file.parent.chmod(0o777)
    if os.getuid() or can_run(program, NOBODY):
        drop = None if os.getuid() else lambda: os.setuid(NOBODY)
        refused_listing(program, file, UNREADABLE, preexec_fn=drop)
    same("files", contents(file.parent).keys(), {file.name})


@check
def a_listing_that_can_not_be_written_is_reported(program, file):
    file.write_bytes(text_of_changes(CHANGES))
    refused_listing(program, file, UNWRITTEN, "closed", stdout=None, preexec_fn=lambda: os.close(1))
    ours, theirs = os.pipe()
    os.close(ours)
    refused_listing(program, file, UNWRITTEN, "a pipe that nobody reads", stdout=theirs)
    os.close(theirs)
    with open("/dev/full", "wb") as full:
        refused_listing(program, file, UNWRITTEN, "a full disk", stdout=full)


@check
def an_empty_name_is_refused(program, file):
    refused(program, "", UNREADABLE, folder=file.parent)
    same("files", contents(file.parent), {})


@check
def a_lock_that_can_not_be_opened_is_refused(program, file):
    file.write_bytes(text_of_changes(CHANGES))
    file.with_name(f"{file.name}.lock").mkdir()
    refused(program, file, UNREADABLE)


@check
def a_new_file_that_can_not_be_made_is_told(program, file):
    file.write_bytes(text_of_changes(CHANGES))
    file.with_name(f"{file.name}.new").mkdir()
    refused(program, file, FAILED)


@check
def a_file_that_can_not_be_read_is_refused(program, file):
    file.write_bytes(text_of_changes(CHANGES))
    file.chmod(0)
    user = None if os.getuid() else NOBODY
    if user:
        file.parent.chmod(0o777)
        if not can_run(program, user):
            print(f"a_file_that_can_not_be_read_is_refused: left out, since the program can't be run by user {user}")
            return
    refused(program, file, UNREADABLE, user=user)


def can_run(program, user):
    """Returns whether a user that is not root can run the program."""
    pid = os.fork()
    if not pid:
        os.setuid(user)
        os._exit(0 if os.access(program, os.X_OK) else 1)
    return os.waitpid(pid, 0)[1] == 0


@check
def another_version_is_refused(program, file):
    text = text_of_changes(CHANGES)
    for found in (b"ringd journal 2 life 1\n", text.replace(b"journal 1", b"journal 2", 1), b"ringd journal 1\n",
                  b"ringd journal 2 life 1 #ee26e62a\n", b"ringd journal 1 \n", bytes(6) + text[len(first_line(1)):],
                  b"\n" + text, b" " + text, text[1:], text[:5], text[:5] + bytes(90), text[:len(WORDS) - 1],
                  text[len(first_line(1)):]):
        file.write_bytes(found)
        refused(program, file, VERSION, repr(found[:20]))


@check
def a_journal_whose_first_bytes_became_zeros_is_refused(program, file):
    """It is no new journal, which would start its terms again. A file of zeros alone is one: see files.py."""
    text = text_of_changes(CHANGES)
    heading = len(first_line(1))
    for count in (1, 2, len(WORDS), heading - 1, heading, heading + 1, len(text) - 1):
        for zeros in (0, 1, AHEAD):
            file.write_bytes(bytes(count) + text[count:] + bytes(zeros))
            refused(program, file, VERSION, f"{count} zeros")
    for found in (b"\0\n", bytes(AHEAD - 1) + b"x", b"\0" + text):
        file.write_bytes(found + bytes(AHEAD))
        refused(program, file, VERSION, repr(found[-20:]))
    file.write_bytes(bytes(AHEAD) + b"x")
    refused(program, file, bad_at(AHEAD), "one byte, far after the first zero")


@check
def a_damaged_number_of_a_life_is_found(program, file):
    rest = text_of_changes(CHANGES)[len(first_line(1)):]
    for word in (b"", b"1", b"1 ", b"2 #00000000", b"3 #ee26e62a", b"1 #EE26E62A", b"x", b"-1", b"+1", b" 1"):
        for end in (b"\n", b"\n" + rest, b"\r\n" + rest, b"", bytes(90)):
            file.write_bytes(WORDS + word + end)
            refused(program, file, bad_at(len(WORDS)), repr(word + end[:9]))
    for word in (b"0", b"01", b"007", b"+7", b"%d" % (MOST_LIVES + 1), b"4294967297", b"9" * 40, b"1 1"):
        file.write_bytes(marked(WORDS + word, 0)[0] + rest)
        refused(program, file, bad_at(len(WORDS)), repr(word))
    for first in (first_line(7)[:-1], first_line(7)[:-2] + b"\n", first_line(7)[:-1] + b" \n", first_line(7)[:-1] + b"\0\n",
                  first_line(1)[:-5] + bytes(3)):
        file.write_bytes(first + rest * (first[-1] == 10 and b"\0" not in first))
        refused(program, file, bad_at(len(WORDS)), repr(first))


@check
def a_journal_has_a_last_life(program, file):
    for life in (9, 99999, MOST_LIVES - 1):
        file.write_bytes(text_of_changes(CHANGES, life))
        with living(program, file) as run, client_of(run) as client:
            same("reply", client.ask(b"members b\n"), b"members 1\n")
        same("the first line", file.read_bytes().partition(b"\n")[0] + b"\n", first_line(life + 1))
    refused(program, file, NO_LIFE, "after the last life")


@check
def a_file_of_something_else_is_refused(program, file):
    for found in (b"x", b"\n", b"\xff" * 9, b"hello\n", b"workers = 2\n", b"\x7fELF\x02\x01\x01\0\0\0", b"x" * 100000,
                  b"create a chang\njoin a 5\n"):
        file.write_bytes(found)
        refused(program, file, VERSION, repr(found[:20]))
    text = text_of_changes(CHANGES)
    file.write_bytes(bytes(100) + text + text_of_changes([b"create a chang"] * 9000))
    refused(program, file, bad_at(100 + AHEAD - 100), "zeros and a long text")


def places_of(text):
    """Returns the place of the first byte of each line."""
    return [0, *(at + 1 for at, byte in enumerate(text) if byte == 10)][:-1]


@check
def each_damaged_byte_is_found(program, file):
    text, dice = text_of_changes(CHANGES), random.Random(1)
    begins = places_of(text)
    for place in range(len(text) - 1):
        begin = max(begin for begin in begins if begin <= place)
        other = text[place] ^ dice.choice([1, 2, 4, 8, 16, 32, 64, 128])
        file.write_bytes(text[:place] + bytes([other or 255]) + text[place + 1:] + bytes(AHEAD))
        refused(program, file, bad_at(begin or len(WORDS)) if place >= len(WORDS) else VERSION, f"byte {place} as {other}")


@check
def lines_that_are_moved_are_found(program, file):
    lines = text_of_changes(CHANGES).splitlines(True)
    for at in range(1, len(lines) - 1):
        begin = sum(map(len, lines[:at]))
        for what, rest in [("left out", lines[at + 1:]), ("swapped", [lines[at + 1], lines[at], *lines[at + 2:]]),
                           ("empty", [b"\n", *lines[at:]])]:
            file.write_bytes(b"".join([*lines[:at], *rest]))
            refused(program, file, bad_at(begin), f"line {at} {what}")
        file.write_bytes(b"".join([*lines[:at + 1], lines[at], *lines[at + 1:]]))
        refused(program, file, bad_at(begin + len(lines[at])), f"line {at} twice")


@check
def changes_that_can_not_come_there_are_found(program, file):
    before = text_of_changes(CHANGES)
    for change in (b"create a chang", b"create c bully", b"create c", b"join a 8", b"join a 8/1", b"join c 1",
                   b"join a 07", b"join a 1/0", b"join a 0", b"leave a 5", b"leave a 8/0", b"leave a 4294967296", b"leave c 1",
                   b"start b ", b"start c", b"know a 1 8 5/9", b"know a 2 8 8", b"know a 2 9 5/9", b"know a 2 8 5",
                   b"know a 3 8 5/9", b"know a 2 5 5/9", b"know b 1 1 1", b"know a 2 8", b"know a 2 8 5/9 5/9", b"",
                   b"know", b"know a 0 8 5/9", b"know a 1001 8 5/9", b"know a 65538 8 5/9", b"know A 2 8 5/9",
                   b"know a 2 8/0 5/9", b"know c 1 8 5/9",
                   b"who a 8", b"members a", b"groups", b"drain a 1", b"know a 02 8 5/9", b"JOIN a 3", b"x" * 200,
                   b"create " + b"x" * 17 + b" chang"):
        file.write_bytes(text_of_changes([*CHANGES, change, b"create z chang"]))
        refused(program, file, bad_at(len(before)), repr(change))
    for change in (b"know a 2 8 5/9", b"start b", b"join a 5/9", b"create " + b"x" * 16 + b" chang"):
        file.write_bytes(text_of_changes([*CHANGES, change]))
        with living(program, file):
            pass
    for before, change in (([], b"join a 1"), ([], b"leave a 1"), ([], b"start a"), ([b"create a chang"], b"start a"),
                           ([*CHANGES, b"know a 2 8 5/9"], b"know a 2 8 5/9")):
        file.write_bytes(text_of_changes([*before, change]))
        refused(program, file, bad_at(len(text_of_changes(before))), repr(change))


@check
def marks_have_one_spelling(program, file):
    before = text_of_changes(CHANGES)
    line, _ = marked(b"join b 12", 0)
    right = text_of_changes([*CHANGES, b"join b 12"])[len(before):]
    for wrong in (line, b"join b 12\n", right[len(b"join b 12"):], right.replace(b"join b", b"join a"),
                  right.upper(), right.replace(b" #", b"#"), right.replace(b" #", b"  #"), right[:-2] + b"\n",
                  right.replace(b" #", b" "), right.replace(b" #", b" ##"), b" " + right, right[:-1] + b" \n"):
        if wrong != right:
            file.write_bytes(before + wrong)
            refused(program, file, bad_at(len(before)), repr(wrong))


@check
def bytes_far_after_the_first_zero_are_found(program, file):
    text = text_of_changes(CHANGES)
    for at, more in ((AHEAD, b"x"), (AHEAD, b"\n"), (AHEAD + 1, b"\xff"), (3 * AHEAD, b"x"), (AHEAD, text)):
        file.write_bytes(text + bytes(at) + more + bytes(5))
        refused(program, file, bad_at(len(text) + at), f"{at} bytes after the first zero")
    file.write_bytes(text + bytes(AHEAD - 1) + b"xy" + bytes(AHEAD))
    refused(program, file, bad_at(len(text) + AHEAD), "one of two bytes is too far")
