"""Checks of a journal's file, one by one: its text, its torn end, its copies and what is next to it."""

import stat
import subprocess
import time

from checking import listed
from journals.changes import History, first_line, lines_after_first, text_of_changes, whole_text
from journals.lives import AHEAD, LONG, Life, asked, client_of, listing, living, say, until
from journals.refusals import bad_at, refused
from serving import PATIENCE, Differs, ended, same

CHECKS, check = listed()
# What more `sed` does to the commands of a journal, so that each term is decided in a replay.
DRAINS = r"; s/^start \(.*\)/&\ndrain \1 1000000000/"


@check
def a_journal_is_lines_that_people_read(program, file):
    with living(program, file) as life:
        say(life, b"create a chang\njoin a 5/9\njoin a 7\njoin a 7\nleave a 7\nstart a\nwho a 9\nbad\n",
            b"ok\nok\nok\nno member\nok\nterm 1\nno not-in-term\nno bad-line\n")
        until(life, b"who a 5\n", b"leader 1 5/9\n", b"undecided 1\n")
    changes = [b"create a chang", b"join a 5/9", b"join a 7", b"leave a 7", b"start a", b"know a 1 5/9 5/9"]
    found = file.read_bytes()
    same("the text of the journal", whole_text(found), text_of_changes(changes))
    same("bytes after the text that are no zeros", found[len(whole_text(found)):].strip(b"\0"), b"")


@check
def a_restart_keeps_each_line(program, file):
    with living(program, file) as life:
        say(life, b"create a chang\njoin a 5/9\njoin a 7\n", b"ok\n" * 3)
    lines = lines_after_first(whole_text(file.read_bytes()))
    for number in range(2, 13):
        with living(program, file) as life:
            say(life, b"members a\n", b"members 5/9 7\n")
        same("the text of the journal", whole_text(file.read_bytes()), first_line(number) + lines)
    same("files next to the journal", names_next_to(file), [file.name, f"{file.name}.lock"])


def names_next_to(file):
    """Returns the names of the files in a journal's folder, without configurations."""
    return sorted(path.name for path in file.parent.iterdir() if path.suffix != ".toml")


@check
def nobody_but_its_owner_can_use_a_journal(program, file):
    """Nobody else may read its files, or keep a service from starting by a lock on one of them."""
    wanted = {file.name: 0o600, f"{file.name}.lock": 0o600}
    for mask in (0, 0o22, 0o77):
        for what in ("new files", "after a restart"):
            with living(program, file, umask=mask):
                same(f"the modes under the umask {mask:03o}, {what}", modes_next_to(file), wanted)
        for name in wanted:
            file.with_name(name).unlink()
    file.write_bytes(first_line(1))
    file.chmod(0o644)
    with living(program, file, umask=0o22):
        same("the modes if others could read the file", modes_next_to(file), wanted)


def modes_next_to(file):
    """Returns the modes of the files in a journal's folder, without configurations."""
    return {name: stat.S_IMODE(file.with_name(name).lstat().st_mode) for name in names_next_to(file)}


@check
def a_term_of_a_ring_of_256_has_a_line_for_each_member(program, file):
    members = b"".join(b"join a %d/65535\n" % member for member in range(4294967040, 4294967296))
    with living(program, file) as life:
        say(life, b"create a chang\n" + members + b"start a\n", b"ok\n" * 257 + b"term 1\n")
        with client_of(life) as client:
            replies, patience = ["undecided 1"], time.monotonic() + LONG
            while "undecided 1" in replies and time.monotonic() < patience:
                replies = asked(client, [("a", ("who", member)) for member in range(4294967040, 4294967296)])
        same("replies", {*replies}, {"leader 1 4294967295/65535"})
    history = History()
    history.read(whole_text(file.read_bytes()))
    same("changes", history.count, 1 + 256 + 1 + 256)


@check
def the_longest_line_is_read_and_written_again(program, file):
    name, members = b"abcdefghijklmnop", (b"4294967295/65535", b"4294967294/65535")
    changes = [b"create %s chang" % name, *(b"join %s %s" % (name, it) for it in members), *[b"start %s" % name] * 1000,
               *(b"know %s 1000 %s %s" % (name, it, members[0]) for it in members)]
    file.write_bytes(text_of_changes(changes))
    with living(program, file) as life:
        say(life, b"who %s 4294967294\n" % name, b"leader 1000 4294967295/65535\n")
    same("the text of the journal", whole_text(file.read_bytes()), text_of_changes(changes, 2))
    same("the longest line", max(map(len, text_of_changes(changes).splitlines())), 70)


@check
def questions_and_refusals_write_nothing(program, file):
    with living(program, file) as life:
        say(life, b"create a chang\njoin a 1\nstart a\n", b"ok\nok\nterm 1\n")
        until(life, b"who a 1\n", b"leader 1 1\n", b"undecided 1\n")
        before = file.stat()
        say(life, b"who a 1\nmembers a\nterms a\ngroups\njoin a 1\nleave a 2\nbad\n" * 1000,
            b"leader 1 1\nmembers 1\nterms 1:1\ngroups a\nno member\nno not-member\nno bad-line\n" * 1000)
        after = file.stat()
        same("the time of the last write", after.st_mtime_ns, before.st_mtime_ns)
        same("the size", after.st_size, before.st_size)


@check
def a_long_journal_grows_by_zeros(program, file):
    joins = b"".join(b"join a %d/65535\nleave a %d\n" % (4294960000 + at, 4294960000 + at) for at in range(2000))
    with living(program, file) as life:
        say(life, b"create a chang\n" + joins, b"ok\n" * 4001)
    found = file.read_bytes()
    text = whole_text(found)
    same("changes", text.count(b"\n"), 4002)
    if not len(text) <= len(found) <= len(text) + 2 * AHEAD:
        raise Differs(f"the file has {len(found)} bytes, and its text {len(text)}")
    with living(program, file) as life:
        say(life, b"members a\ngroups\n", b"members\ngroups a\n")


@check
def a_journal_without_lines_begins_anew(program, file):
    for found in (b"", bytes(3), bytes(70), bytes(200000), first_line(1), first_line(9) + bytes(100),
                  first_line(1) + b"know a 1 4 3/9 #b71d08a4", first_line(1) + b"know a 1 4 3/9\0#b71d08a4\n\0\0"):
        file.write_bytes(found)
        with living(program, file) as life:
            say(life, b"groups\ncreate a chang\n", b"groups\nok\n")
        with living(program, file) as life:
            say(life, b"groups\n", b"groups a\n")


@check
def a_torn_tail_is_dropped(program, file):
    changes = [b"create a chang", b"join a 5", b"join a 7"]
    text, next_text = text_of_changes(changes, 9), text_of_changes(changes, 10)
    for tail in (b"j", b"join a 8", b"join a 8 #12345678", b"\0" * 9 + b"join a 8 #12345678\n", b"\0\n", b"#",
                 b"join a 8\0#00000000\n" * 3, bytes(AHEAD - 1) + b"x", b"x" * 70000, b"create b",
                 b"know a 1 5 7 #b71d08a4", b"know a 1 5 7\0#b71d08a4\n\0\0"):
        for zeros in (0, 1, AHEAD):
            file.write_bytes(text + tail + bytes(zeros))
            with living(program, file) as life:
                say(life, b"groups\nmembers a\n", b"groups a\nmembers 5 7\n")
            same("the text of the journal", whole_text(file.read_bytes()), next_text)


@check
def a_zero_in_the_last_part_of_the_text_is_a_torn_tail(program, file):
    """Whatever wrote it, a start goes on from the lines before it. A byte that is 64 KiB after a zero is damage."""
    changes = [b"create a chang", *(b"%s a %d" % (word, 7) for _ in range(2000) for word in (b"join", b"leave"))]
    text = text_of_changes(changes)
    last = len(text) - AHEAD
    for place in (last, last + 1, len(text) // 2 + AHEAD // 2, text.rindex(b"leave"), len(text) - 1):
        file.write_bytes(text[:place] + b"\0" + text[place + 1:] + bytes(AHEAD))
        left = whole_text(file.read_bytes()).count(b"\n") - 1
        with living(program, file) as life:
            say(life, b"members a\n", b"members 7\n" if left % 2 == 0 else b"members\n")
    file.write_bytes(text[:last - 1] + b"\0" + text[last:] + bytes(AHEAD))
    refused(program, file, bad_at(len(text) - 1), "a zero before the last part")


@check
def what_an_earlier_start_left_is_removed(program, file):
    file.write_bytes(text_of_changes([b"create a chang"]))
    file.with_name(f"{file.name}.new").write_bytes(first_line(2) + b"create b chang #0000")
    file.with_name(f"{file.name}.lock").write_bytes(b"x")
    with living(program, file) as life:
        say(life, b"groups\n", b"groups a\n")
    same("files next to the journal", names_next_to(file), [file.name, f"{file.name}.lock"])


@check
def a_journal_may_be_in_the_folder_of_the_program(program, file):
    life = Life(program, file.name, folder=file.parent)
    with ended(life.run):
        same("the first line", life.out, b"listening 127.0.0.1:%d\n" % life.port)
        say(life, b"create a chang\n", b"ok\n")
    with living(program, file) as other:
        say(other, b"groups\n", b"groups a\n")


@check
def without_a_journal_nothing_is_kept(program, file):
    for _ in range(2):
        life = Life(program, None, folder=file.parent)
        with ended(life.run):
            say(life, b"groups\ncreate a chang\n", b"groups\nok\n")
    same("files", names_next_to(file), [])


@check
def a_copy_of_a_growing_journal_is_a_journal(program, file):
    copies = []
    with living(program, file) as life, client_of(life) as client:
        same("reply", client.ask(b"create a chang\n"), b"ok\n")
        for number in range(1, 201):
            client.send(b"join a %d\n" % number)
            if number % 20 == 0:
                copies.append((number - 1, file.read_bytes()))
            same("reply", client.line(), b"ok\n")
    for number, found in copies:
        file.write_bytes(found)
        with living(program, file) as life, client_of(life) as client:
            seen = client.ask(b"members a\n").split()[1:]
        same("members of a copy", seen, [b"%d" % it for it in range(1, len(seen) + 1)])
        if len(seen) < number:
            raise Differs(f"a copy has {len(seen)} members, and {number} joined before it was made")


@check
def a_journal_is_listed_while_it_grows(program, file):
    with living(program, file) as life, client_of(life) as client:
        for number in range(20):
            same("reply", client.ask(b"create g%d chang\n" % number), b"ok\n")
            client.send(b"join g%d 5/9\njoin g%d 7\n" % (number, number) * 20)
            ran = listing(program, file)
            same("replies", b"".join(client.line() for _ in range(40)), b"ok\nok\n" + b"no member\n" * 38)
            same("status and standard error", (ran.returncode, ran.stderr), (0, b""))
            lines = ran.stdout.splitlines()
            same("groups that are listed", sum(line.startswith(b"group ") for line in lines), number + 1)
            same("the first words of the last line", lines[-1].split(b" ")[0], b"whole:")


@check
def a_damaged_journal_goes_on_after_a_cut(program, file):
    text = text_of_changes([b"create a chang", b"join a 5", b"join a 7", b"join a 8"])
    at = text.index(b"join a 7")
    file.write_bytes(text.replace(b"join a 7", b"join a 6"))
    ran = listing(program, file)
    same("what is listed", (ran.returncode, ran.stdout, ran.stderr),
         (1, b"", b"ringd: journal bad at byte %d\n" % at))
    file.write_bytes(file.read_bytes()[:at])
    with living(program, file) as life:
        say(life, b"members a\n", b"members 5\n")


@check
def a_journal_is_a_schedule(program, file):
    with living(program, file) as life:
        say(life, b"create a chang\njoin a 5/9\njoin a 7\nleave a 5\nstart a\nstart a\n",
            b"ok\n" * 4 + b"term 1\nterm 2\n")
        until(life, b"who a 7\n", b"leader 2 7\n", b"undecided 2\n")
    replies = b"ok\n" * 4 + b"term 1\n%sterm 2\n%s"
    same("replies", replayed(program, file, ""), replies % (b"", b""))
    drained = b"drained 2 left 0\n"
    same("replies with drains", replayed(program, file, DRAINS), replies % (drained, drained))


def replayed(program, file, more):
    """Returns what `ringd replay` prints of a journal, by the commands of docs/OPERATING.md."""
    schedule = rf"tr -d '\0' < {file.name} | grep -v '^ringd\|^know' | sed 's/ #.*//{more}'"
    words = ["sh", "-c", f'{schedule} | "$0" replay', program]
    return subprocess.run(words, stdout=subprocess.PIPE, cwd=file.parent, timeout=PATIENCE, check=True).stdout
