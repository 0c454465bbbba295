"""The works of the benchmark: each is a generator of lines, the same lines at each run."""

import random

import measure

ALL = 1000000000
KINDS = ["lelann", "chang", "hirschberg", "peterson"]
RING = 256


class Work:
    """A name for the table, and a function from a scale (1 is whole) to the lines."""

    def __init__(self, name, lines):
        self.name = name
        self.lines = lines


class Contrast:
    """A name for the table, a function to the lines of a schedule from how much it does, the two
    amounts that are set against each other, and a function from replies to what was done."""

    def __init__(self, name, lines, less, more, acts_in):
        self.name = name
        self.lines = lines
        self.less = less
        self.more = more
        self.acts_in = acts_in


def write_lines(lines, path):
    """Writes lines into a file; the answer is their number."""
    count = 0
    with path.open("w") as target:
        for count, line in enumerate(lines, start=1):
            target.write(line + "\n")
    return count


def scaled(number, scale):
    return max(1, round(number * scale))


def group_of(name, kind, members):
    """Makes a group with these members."""
    yield f"create {name} {kind}"
    for node in members:
        yield f"join {name} {node}"


def random_ring(rng, length):
    return rng.sample(range(1, 4294967296), length)


def whole_terms(name, members, terms):
    """Runs each term to its end, and asks some members after each."""
    for term in range(terms):
        yield f"start {name}"
        yield f"drain {name} {ALL}"
        yield f"who {name} {members[term % len(members)]}"
    yield f"terms {name}"


def one_ring(kind, members):
    """A thousand terms of one group."""
    def lines(scale):
        yield from group_of("ring", kind, members)
        yield from whole_terms("ring", members, scaled(1000, scale))
    return lines


def small_rings(kind, members, groups):
    """A thousand terms of each of so many groups with these few members, without a question."""
    def lines(scale):
        for number in range(scaled(groups, scale)):
            name = f"small-{number}"
            yield from group_of(name, kind, members)
            for _ in range(1000):
                yield f"start {name}"
                yield f"drain {name} {ALL}"
    return lines


def random_rings(kind, groups):
    """A thousand terms of each of some groups of 256, each in an order of its own."""
    def lines(scale):
        rng = random.Random(f"rings of {kind}")
        for number in range(groups):
            members = random_ring(rng, RING)
            yield from group_of(f"{kind}-{number}", kind, members)
            yield from whole_terms(f"{kind}-{number}", members, scaled(1000, scale))
    return lines


def many_rings(scale):
    """One term of 256 groups of 256 under LeLann, with all their journals kept."""
    rng = random.Random("many rings")
    names = [f"group-{number}" for number in range(scaled(256, scale))]
    for name in names:
        yield from group_of(name, "lelann", random_ring(rng, RING))
    for name in names:
        yield f"start {name}"
    for name in names:
        yield f"drain {name} {ALL}"


def questions(scale):
    """A million questions who leads, to the members of a decided ring."""
    rng = random.Random("questions")
    members = random_ring(rng, RING)
    yield from group_of("asked", "chang", members)
    yield "start asked"
    yield f"drain asked {ALL}"
    for node in rng.choices(members, k=scaled(1000000, scale)):
        yield f"who asked {node}"


# How many of a hundred mixed lines are of each form.
MIXTURE = {
    "deliver {group} {node} left": 30,
    "deliver {group} {node} {side}": 10,
    "who {group} {node}": 20,
    "pending {group}": 10,
    "drain {group} {count}": 9,
    "members {group}": 5,
    "leave {group} {node}": 4,
    "join {group} {node}": 4,
    "start {group}": 3,
    "terms {group}": 1,
    "create {group} chang": 1,
    "who nobody {node}": 1,
    "join {group} 0{node}": 1,
    "drain {group}": 1,
}


def mixed(scale):
    """A million mixed lines over 256 groups of 16, of all four algorithms."""
    rng = random.Random("mixed lines")
    nodes = range(1, 21)
    names = [f"group-{number}" for number in range(256)]
    for number, name in enumerate(names):
        yield from group_of(name, KINDS[number % 4], rng.sample(nodes, 16))
        yield f"start {name}"
    count = scaled(1000000, scale)
    for form in rng.choices(list(MIXTURE), weights=MIXTURE.values(), k=count):
        yield form.format(group=rng.choice(names), node=rng.choice(nodes),
                          count=rng.randrange(40), side=rng.choice(["left", "right"]))
    yield "groups"


WORKS = [
    Work("one line", lambda scale: iter(["groups"])),
    Work("Chang-Roberts, a falling ring of 256", one_ring("chang", range(RING, 0, -1))),
    Work("Chang-Roberts, 256 falling rings of 3", small_rings("chang", [3, 2, 1], 256)),
    Work("Hirschberg-Sinclair, 4 rings of 256", random_rings("hirschberg", 4)),
    Work("Hirschberg-Sinclair, 256 rings of 3", small_rings("hirschberg", [3, 2, 1], 256)),
    Work("Peterson, 4 rings of 256", random_rings("peterson", 4)),
    Work("LeLann, a ring of 256", one_ring("lelann", range(1, RING + 1))),
    Work("mixed lines, 256 groups of 16", mixed),
    Work("who lines, a ring of 256", questions),
    Work("LeLann, 256 rings of 256 kept", many_rings),
]


def delivery(name, kind, members, terms):
    """One delivery: so many terms with drains of 0, and the same with drains of all."""
    def lines(limit):
        yield from group_of("ring", kind, members)
        for _ in range(terms):
            yield "start ring"
            yield f"drain ring {limit}"
    return Contrast(f"delivery, {name}", lines, 0, ALL, measure.deliveries_in)


def question():
    """One `who` line: a decided ring with one question, and the same with ten thousand."""
    return Contrast("who line, a ring of 256", questions, 0, 0.01, measure.leaders_in)


def contrast_ring(kind, length):
    return random_ring(random.Random(f"one ring of {kind}"), length)


CONTRASTS = [
    delivery("Chang-Roberts, a falling ring of 256", "chang", range(RING, 0, -1), 3),
    delivery("Chang-Roberts, a falling ring of 3", "chang", [3, 2, 1], 1000),
    delivery("Hirschberg-Sinclair, a ring of 64", "hirschberg", contrast_ring("hirschberg", 64), 30),
    delivery("Hirschberg-Sinclair, a falling ring of 3", "hirschberg", [3, 2, 1], 1000),
    delivery("Peterson, a ring of 256", "peterson", contrast_ring("peterson", RING), 30),
    delivery("LeLann, a ring of 256", "lelann", range(1, RING + 1), 2),
    question(),
]
