"""Checks of starts and of running services that shorten a journal, one by one."""

from checking import listed
from journals.changes import text_of_changes, whole_text
from journals.lives import AHEAD, asked, client_of, living, say, until
from journals.shortening import LEAST
from serving import Differs, same

CHECKS, check = listed()
# How often members come and go.
OFTEN = 2000
# Changes, and the fewer ones that lead to the same groups. Changes that were undone before a start are left out.
SHORT = [
    # members that joined and left
    ("create a chang,join a 1,leave a 1,join a 1/7,join a 2,leave a 1", "create a chang,join a 2"),
    # groups without members
    ("create b peterson,join b 1,leave b 1,create a lelann,join a 1,leave a 1", "create b peterson,create a lelann"),
    # members who moved to the end
    ("create a chang,join a 1,join a 2,join a 3,leave a 2,join a 2/9,leave a 1,join a 1",
     "create a chang,join a 3,join a 2/9,join a 1"),
    # a term, after which everybody leaves and comes back in another order
    ("create a hirschberg,join a 1,join a 2,start a,know a 1 2 2,leave a 1,join a 1,leave a 2,join a 2,leave a 1,join a 1"
     + ",join a 3,leave a 3" * 3,
     "create a hirschberg,join a 1,join a 2,start a,know a 1 2 2,leave a 1,join a 1"),
    # two terms, of which the second has a smaller ring
    ("create a chang,join a 1,join a 2,join a 3,start a,know a 1 3 3,know a 1 1 3,leave a 2,join a 2,leave a 2,join a 5,"
     "leave a 5,join a 6,leave a 6,leave a 3,start a,know a 2 1 1" + ",join a 7,leave a 7" * 5,
     "create a chang,join a 1,join a 2,join a 3,start a,know a 1 1 3,know a 1 3 3,leave a 2,leave a 3,start a,know a 2 1 1"),
    # two groups in turn
    ("create a chang,create b peterson,join b 4,join a 4,start b,leave b 4,join b 4,leave b 4,join b 5,leave a 4,join a 4,"
     "leave a 4,join a 4,leave a 4,know b 1 4 4" + ",join a 4,leave a 4" * 2,
     "create a chang,create b peterson,join b 4,start b,know b 1 4 4,leave b 4,join b 5"),
]
# Changes that are left as they are: fewer lead to the same groups, but more than half as many.
KEPT = [
    "create a chang,join a 1,join a 2,join a 3,leave a 3",
    "create a chang,join a 1,join a 2,start a,know a 1 2 2,know a 1 1 2,join a 3,leave a 3",
]


def see_text(file, text):
    """Sees that the journal's file has this text, and zeros after it."""
    found = file.read_bytes()
    same("the text of the journal", whole_text(found), text)
    same("bytes after the text that are no zeros", found[len(text):].strip(b"\0"), b"")


def see_begun(program, file, found, left):
    """Sees that a start which finds some changes begins the journal with those that are left. The members of a term may
    come to know its leader after that."""
    file.write_bytes(text_of_changes(found))
    with living(program, file):
        text = whole_text(file.read_bytes())
    begun = text_of_changes(left, 2)
    same("the text that a start begins with", text[:len(begun)], begun)
    same("other changes after it", [line for line in text[len(begun):].splitlines() if not line.startswith(b"know ")], [])


@check
def a_start_leaves_out_what_was_undone(program, file):
    for found, left in [*SHORT, *((left, left) for _, left in SHORT), *((kept, kept) for kept in KEPT)]:
        see_begun(program, file, found.encode().split(b","), left.encode().split(b","))
    see_begun(program, file, [], [])


def see_starts(program, file, changes, questions, replies):
    """Sees that the starts of lives 2 and 3 leave these changes, and that the replies to questions are right."""
    for life in (2, 3):
        with living(program, file) as run, client_of(run) as client:
            same("replies", asked(client, questions), replies)
        see_text(file, text_of_changes(changes, life))


@check
def a_start_shortens_a_journal_of_members_that_come_and_go(program, file):
    came_and_went = b"join a 7/65535\nleave a 7\n" * OFTEN
    with living(program, file) as life:
        say(life, b"create a chang\ncreate b peterson\njoin b 1\njoin a 4\njoin a 1/9\njoin a 3\nstart a\n",
            b"ok\n" * 6 + b"term 1\n")
        for line in (b"who a 3\n", b"who a 1\n", b"who a 4\n"):
            until(life, line, b"leader 1 1/9\n", b"undecided 1\n")
        say(life, came_and_went + b"leave a 1\njoin a 1/8\nleave a 4\njoin a 4\nleave b 1\njoin b 2\n",
            b"ok\n" * (2 * OFTEN + 6))
    same("changes", whole_text(file.read_bytes()).count(b"\n") - 1, 16 + 2 * OFTEN)
    changes = [b"create a chang", b"join a 4", b"join a 1/9", b"join a 3", b"start a", b"know a 1 4 1/9",
               b"know a 1 1/9 1/9", b"know a 1 3 1/9", b"leave a 4", b"leave a 1", b"join a 1/8", b"join a 4",
               b"create b peterson", b"join b 2"]
    questions = [("", ("groups",)), ("a", ("members",)), ("a", ("terms",)),
                 *(("a", ("who", it)) for it in (1, 3, 4, 7)), ("b", ("members",)), ("b", ("terms",))]
    see_starts(program, file, changes, questions, [
        "groups a b", "members 3 1/8 4", "terms 1:1/9", *["leader 1 1/9"] * 3, "no not-in-term", "members 2", "terms"])


@check
def a_start_keeps_what_members_know_of_each_term(program, file):
    came_and_went = [b"join a 9/1", b"leave a 9"] * 20
    begin = [b"create a chang", b"join a 4", b"join a 1/9", b"join a 3"]
    file.write_bytes(text_of_changes([
        *begin, b"start a", b"know a 1 3 1/9", b"know a 1 4 1/9", *came_and_went, b"start a", *came_and_went,
        b"start a", b"know a 3 4 1/9", b"leave a 1", *came_and_went, b"join a 5/1", b"start a", b"know a 4 5/1 5/1",
        b"know a 4 4 5/1", b"know a 4 3 5/1"]))
    see_starts(program, file, [
        *begin, b"start a", b"know a 1 4 1/9", b"know a 1 3 1/9", b"start a", b"start a", b"know a 3 4 1/9",
        b"leave a 1", b"join a 5/1", b"start a", b"know a 4 4 5/1", b"know a 4 3 5/1", b"know a 4 5/1 5/1"],
        [("a", ("terms",)), ("a", ("members",)), *(("a", ("who", it)) for it in (4, 3, 5, 1))],
        ["terms 1:1/9 2:- 3:1/9 4:5/1", "members 4 3 5/1", *["leader 4 5/1"] * 3, "no not-in-term"])


@check
def a_start_spares_half_of_the_changes_or_none(program, file):
    for members, is_short in ((199, True), (200, False)):
        few = [b"create a chang", *(b"join a %d" % member for member in range(1, members + 1))]
        found = few + [b"join a 300", b"leave a 300"] * 100
        file.write_bytes(text_of_changes(found))
        see_starts(program, file, few if is_short else found, [("a", ("members",))],
                   [" ".join(["members", *map(str, range(1, members + 1))])])


@check
def a_running_service_keeps_its_journal_short(program, file):
    came_and_went = b"join a 4294967295/65535\nleave a 4294967295\n" * OFTEN
    few = [b"create a chang", b"join a 4", b"join a 1/9"]
    with living(program, file) as life:
        say(life, b"create a chang\njoin a 4\njoin a 1/9\n", b"ok\n" * 3)
        for _ in range(20):
            say(life, came_and_went, b"ok\n" * (2 * OFTEN))
            if len(whole_text(file.read_bytes())) > LEAST + 65536:
                raise Differs("a running service lets its journal grow")
        same("the files beside the journal", sorted(path.name for path in file.parent.glob(file.name + "*")),
             [file.name, file.name + ".lock"])
        say(life, b"members a\n", b"members 4 1/9\n")
    text = whole_text(file.read_bytes())
    if not text.startswith(text_of_changes(few, 1)):
        raise Differs("a running service left other changes in its journal than it has to")
    with living(program, file) as life, client_of(life) as client:
        same("members", asked(client, [("a", ("members",))]), ["members 4 1/9"])


@check
def a_running_service_writes_a_long_text_anew(program, file):
    """The shorter text has more bytes than are ever written between two syncs."""
    names = [b"group-of-%d-byte" % number for number in range(10, 18)]
    few = [[b"create %s chang" % name, *(b"join %s %d/65535" % (name, 4294967040 + it) for it in range(256))] for name in names]
    with living(program, file) as life:
        for changes in few:
            say(life, b"".join(change + b"\n" for change in changes), b"ok\n" * len(changes))
        say(life, b"create a chang\n", b"ok\n")
        for _ in range(2):
            say(life, b"join a 4294967295/65535\nleave a 4294967295\n" * OFTEN, b"ok\n" * (2 * OFTEN))
    begun = text_of_changes([*sum(few, []), b"create a chang"])
    text = whole_text(file.read_bytes())
    same("the text begins with the groups", text[:len(begun)], begun)
    if not AHEAD < len(begun) < len(text) < LEAST + AHEAD:
        raise Differs(f"the text has {len(text)} bytes, of which {len(begun)} are needed")
    with living(program, file) as life:
        wanted = b" ".join([b"members", *(b"%d/65535" % (4294967040 + it) for it in range(256))])
        for name in names:
            say(life, b"members %s\n" % name, wanted + b"\n")
