"""The lines of a journal, and the groups that their changes make.

The first line of a journal has the number of its life, ` #` and the check of this line. Each further line is a change,
` #` and the check of all changes so far. Zeros follow the lines. A command is a tuple of words without the group's name, as ("leave", 3).
"""

import bisect
import re
from typing import NamedTuple
import zlib

from identity import Identity, numbers_of
from model import MOST_MEMBERS, MOST_TERMS, winner
from serving import Differs, short

# The words before the number of the life, and the number of the last life.
WORDS, MOST_LIVES = b"ringd journal 1 life ", 1 << 20
KINDS = ("lelann", "chang", "hirschberg", "peterson")
NAME = re.compile("[a-z0-9-]{1,16}")
MOST_NUMBER, MOST_WEIGHT = 4294967295, 65535


def line_of(group, command):
    """Returns the line of a command about a group; `groups` is about none."""
    first, *rest = command
    return " ".join([first, *([group] if group else []), *map(str, rest)]).encode() + b"\n"


def marked(change, check):
    """Returns the line of a change in a journal, and the check after it; the check of no changes is 0."""
    check = zlib.crc32(change, check)
    return b"%s #%08x\n" % (change, check), check


def first_line(life):
    """Returns the first line of a journal in this life."""
    return marked(WORDS + b"%d" % life, 0)[0]


def life_of(text):
    """Returns the number of the life in the first line of a text, which must be right; 0 if it has no line."""
    first = text[:text.find(b"\n") + 1]
    word = first[len(WORDS):].partition(b" ")[0]
    if first and (not word.isdigit() or first != first_line(int(word))):
        raise Differs(f"the journal begins with {short(first)}")
    return int(word or 0)


def lines_after_first(text):
    """Returns the text after the first line."""
    return text[text.find(b"\n") + 1:]


def text_of_changes(changes, life=1):
    """Returns the text of a journal of these changes in a life."""
    lines, check = [first_line(life)], 0
    for change in changes:
        line, check = marked(change, check)
        lines.append(line)
    return b"".join(lines)


def whole_text(found):
    """Returns the lines of a file that an LF ends before the first zero."""
    text = found[:(found + b"\0").index(b"\0")]
    return text[:text.rfind(b"\n") + 1]


class Group(NamedTuple):
    """A group as changes leave it: its members in order, and the leader of each term that was started, None if no
    member came to know one. `ring` are the members of the last term, and `informed` the numbers of those that know."""

    kind: str
    members: tuple = ()
    leaders: tuple = ()
    ring: tuple = ()
    informed: frozenset = frozenset()

    def reply(self, command):
        """Returns the one reply to a command."""
        return REPLIES[command[0]](self, *command[1:])

    def winner(self):
        """Returns the member that may lead the last term."""
        return winner(self.kind, self.ring)

    def reply_to_join(self, member):
        if member.number in numbers_of(self.members):
            return "no member"
        return "no ring-full" if len(self.members) == MOST_MEMBERS else "ok"

    def reply_to_leave(self, number):
        return "ok" if number in numbers_of(self.members) else "no not-member"

    def reply_to_start(self):
        if not self.members:
            return "no empty"
        term = len(self.leaders) + 1
        return "no term-limit" if term > MOST_TERMS else f"term {term}"

    def reply_to_who(self, number):
        term = len(self.leaders)
        if not term:
            return "no no-term"
        if number not in numbers_of(self.ring):
            return "no not-in-term"
        return f"leader {term} {self.leaders[-1]}" if number in self.informed else f"undecided {term}"

    def reply_to_members(self):
        return " ".join(["members", *map(str, self.members)])

    def reply_to_terms(self):
        return " ".join(["terms", *(f"{term}:{leader or '-'}" for term, leader in enumerate(self.leaders, 1))])

    def after(self, command):
        """Returns the group after a command that was granted."""
        word, *rest = command
        if word == "join":
            return self._replace(members=(*self.members, rest[0]))
        if word == "leave":
            return self._replace(members=tuple(it for it in self.members if it.number != rest[0]))
        if word == "start":
            return self._replace(leaders=(*self.leaders, None), ring=self.members, informed=frozenset())
        return self

    def knows(self, term, member, leader):
        """Returns the group after a member came to know the leader; None if it could not."""
        is_news = member in self.ring and member.number not in self.informed
        if term != len(self.leaders) or not is_news or leader != self.winner():
            return None
        return self._replace(leaders=(*self.leaders[:-1], leader), informed=self.informed | {member.number})


REPLIES = {"join": Group.reply_to_join, "leave": Group.reply_to_leave, "start": Group.reply_to_start,
           "who": Group.reply_to_who, "members": Group.reply_to_members, "terms": Group.reply_to_terms}


def number_of(word, most):
    """Returns the number that a word spells, from 1 to `most`."""
    number = int(word)
    if str(number) != word or not 1 <= number <= most:
        raise ValueError(word)
    return number


def member_of(word):
    """Returns the member that a word spells."""
    number, _, weight = word.partition("/")
    member = Identity(number_of(weight, MOST_WEIGHT) if weight else 0, number_of(number, MOST_NUMBER))
    if str(member) != word:
        raise ValueError(word)
    return member


# The words after the group's name in a change that a command makes.
VALUES = {"join": member_of, "leave": lambda word: number_of(word, MOST_NUMBER), "start": None}


def changed(group, words):
    """Returns a group after a change, which is given as its words; None if no command and no report could make that
    change."""
    first, name, *rest = words
    if first == "create":
        is_new = group is None and NAME.fullmatch(name) and rest[0] in KINDS
        return Group(*rest) if is_new else None
    if group is None:
        return None
    if first == "know":
        term, member, leader = rest
        return group.knows(number_of(term, MOST_TERMS), member_of(member), member_of(leader))
    command = (first, *map(VALUES[first], rest))
    return None if group.reply(command).startswith("no ") else group.after(command)


def after_words(group, words):
    """Returns a group after the change that these words spell; None if there is no such change."""
    try:
        return changed(group, words)
    except (KeyError, ValueError, TypeError, IndexError):
        return None


class Versions:
    """A value after each number of changes."""

    def __init__(self, first):
        self.numbers, self.values = [0], [first]

    def add(self, number, value):
        """Notes the value after this many changes."""
        self.numbers.append(number)
        self.values.append(value)

    def at(self, count):
        """Returns the value after `count` changes."""
        return self.values[bisect.bisect_right(self.numbers, count) - 1]

    def since(self, count):
        """Yields the value after `count` changes, and each later one, with the number of changes that made it."""
        for at in range(bisect.bisect_right(self.numbers, count) - 1, len(self.numbers)):
            yield self.numbers[at], self.values[at]

    def forget(self):
        """Drops all values except the last."""
        self.numbers, self.values = [0], self.values[-1:]


class History:
    """The groups after each number of changes, from a journal that grows, as it does between two starts or rewritings.
    `life` is the number of its life."""

    def __init__(self):
        self.count, self.check, self.size, self.life = 0, 0, 0, 0
        self.groups, self.names = {}, Versions(())
        # of each change, the numbers of changes after which it was made
        self.places = {}

    def read(self, text):
        """Takes the text of a journal. Its lines after the first begin with all that was taken before. Each line must be
        right, and the number of the life may not fall."""
        life = life_of(text)
        if life < self.life:
            raise Differs(f"the journal is in life {life} after {self.life}")
        self.life = life
        for line in lines_after_first(text)[self.size:].splitlines(True):
            self.add(line)
            self.size += len(line)

    def go_on_after(self, begun):
        """Notes that a text takes the place of the journal's, whose changes lead to the same groups. What is read next
        begins with it. The changes are counted on."""
        self.size, self.check = len(lines_after_first(begun)), 0
        for line in lines_after_first(begun).splitlines():
            self.check = marked(line.rpartition(b" #")[0], self.check)[1]

    def add(self, line):
        """Takes one more line."""
        change, _, _ = line.rpartition(b" #")
        wanted, self.check = marked(change, self.check)
        words = change.decode("ascii", "replace").split(" ")
        versions = self.groups.setdefault(words[1] if len(words) > 1 else "", Versions(None))
        group = after_words(versions.values[-1], words) if line == wanted else None
        if group is None:
            raise Differs(f"line {self.count + 2} of the journal, {self.size} bytes after the first line, can't be: {short(line)}")
        self.count += 1
        versions.add(self.count, group)
        if words[0] == "create":
            self.names.add(self.count, (*self.names.values[-1], words[1]))
        self.places.setdefault(change, []).append(self.count)

    def group_at(self, name, count):
        """Returns a group after `count` changes; None if there is none."""
        return self.groups[name].at(count) if name in self.groups else None

    def last_groups(self):
        """Returns the groups after all changes, in order of their creation."""
        return [(name, self.group_at(name, self.count)) for name in self.names.at(self.count)]

    def explained(self, name, command, reply, count):
        """Returns the least number of changes, from `count` on, after which a command is answered so; None if there
        is none. A change counts itself."""
        if reply in ("no bad-line", "no no-memory", "no seat-spent"):
            return count
        if reply == "ok" or reply.startswith("term "):
            places = self.places.get(line_of(name, command)[:-1], [])
            at = int(reply[5:]) - 1 if reply.startswith("term ") else bisect.bisect_right(places, count)
            return max(places[at], count) if at < len(places) else None
        versions = self.groups.get(name, Versions(None)) if name else self.names
        for number, version in versions.since(count):
            if answer(name, version, command) == reply:
                return max(number, count)
        return None

    def forget(self):
        """Drops the groups as they were before the last change, and the places of all changes except starts."""
        for versions in [self.names, *self.groups.values()]:
            versions.forget()
        self.places = {change: places for change, places in self.places.items() if change.startswith(b"start ")}


def history_of(text):
    """Returns the history of a text."""
    history = History()
    history.read(text)
    return history


def answer(name, version, command):
    """Returns the reply to a command about a group, or to `groups` if `name` is empty and `version` are the names."""
    if not name:
        return " ".join(["groups", *version])
    if command[0] == "create":
        return "ok" if version is None else "no exists"
    return "no no-group" if version is None else version.reply(command)
