"""Whether the calls of many clients fit one history."""

from identity import identity_of, numbers_of
from model import unexplained
from serving import Differs, same, short


def in_order(what, calls, number_of):
    """Sees that a number never falls from a call to one that began after the first ended."""
    least, ends = 0, sorted(calls, key=lambda call: call.ended)
    place = 0
    for call in sorted(calls, key=lambda call: call.begun):
        while place < len(ends) and ends[place].ended < call.begun:
            least = max(least, number_of(ends[place]))
            place += 1
        if number_of(call) < least:
            raise Differs(f"{what}: {call.command} was answered {short(call.reply)} after {least}")


def check_lists(lists):
    """Groups are listed in one order, and never vanish."""
    for shorter, longer in zip(ordered := sorted(lists, key=lambda call: len(call.reply)), ordered[1:]):
        if not f"{longer.reply} ".startswith(f"{shorter.reply} "):
            raise Differs(f"groups: {short(shorter.reply)} beside {short(longer.reply)}")
    in_order("groups", lists, lambda call: len(call.reply))


def terms_told(call):
    """The terms of which a reply tells, each with its leader, or nothing where it tells of none."""
    first, *rest = call.reply.split(" ")
    if first == "leader":
        return [(int(rest[0]), rest[1])]
    if first == "terms":
        return [(int(term), leader) for term, leader in (word.split(":") for word in rest)]
    return [(int(rest[0]), "-")] if first in ("term", "undecided") else []


def check_all(calls):
    """The group that all clients share: each term is started once, has one leader, and none falls."""
    started = [call.reply for call in calls if call.command == ("start",) and call.reply.startswith("term ")]
    if len(set(started)) != len(started):
        raise Differs("a term was started twice")
    if {int(reply.split(" ")[1]) for reply in started} != set(range(1, len(started) + 1)):
        raise Differs("the terms that were started aren't 1, 2 and so on")
    leaders = {}
    for call in calls:
        for term, leader in terms_told(call):
            if leader != "-" and leaders.setdefault(term, leader) != leader:
                raise Differs(f"term {term} is led by {leaders[term]} and by {leader}")
    told = [call for call in calls if terms_told(call)]
    in_order("terms", told, lambda call: terms_told(call)[-1][0])
    check_knowing(calls)


def check_knowing(calls):
    """Who was told a leader isn't told later that there is none; nor is a term that has one."""
    known = {}
    for call in calls:
        for term, leader in terms_told(call):
            for about in {None, member_of(call)} if leader != "-" else ():
                key = term, about
                known[key] = min(known.get(key, call.ended), call.ended)
    for call in calls:
        for term, leader in terms_told(call):
            is_missed = leader == "-" and call.command != ("start",)
            if is_missed and known.get((term, member_of(call)), call.begun) < call.begun:
                raise Differs(f"term {term}: {call.command} was answered {short(call.reply)} after its leader")


def member_of(call):
    """The member whom a call asks, None where it asks about the group."""
    return call.command[1] if call.command[0] == "who" else None


def check_shares(member):
    """What a client sees of its own members in the group of all is what it did with them."""
    present = []
    for call in member.all_calls:
        word, about = call.command[0], call.command[-1]
        number, wanted = about, None
        if word == "join":
            number = about.number
            wanted = "no member" if number in numbers_of(present) else "ok"
        elif word == "leave":
            wanted = "ok" if number in numbers_of(present) else "no not-member"
        elif word == "members":
            seen = [identity_of(it) for it in call.reply.split(" ")[1:]]
            same("its own members", [it for it in seen if it.number in member.shares], present)
            same("members of all", len(seen), len(set(numbers_of(seen))))
        if wanted and call.reply != wanted:
            raise Differs(f"client {member.number}: {call.command} was answered {short(call.reply)}")
        if wanted == "ok":
            present = [it for it in present if it.number != number] + [about] * (word == "join")


def check_team(number, kind, calls):
    """Looks for the one order of all calls about a group of four."""
    call = unexplained(kind, calls)
    if call:
        raise Differs(f"team{number}: no order explains that {call.command} was answered {short(call.reply)}")
