"""What a check says of the functions that an edit changed: each is refused, not refused, or not judged.

A function is refused where a goal of it is false: the prover's own search does not prove the goal, or an answer by hand
does not. But an answer may also fail for its form alone: it cites a name that the new body has no more, or an equation
that has another form there. So it counts at once only where it is one search for its goal, where the prover names values
that break it, or where the goal speaks of other values than the answer. Where nothing but other answers failed, the
verdict is left to a second check, with a search over the lemmas of each in its place. There the goal is true if the
search proves it, and false if the prover names values that break it or has tried every way; else nothing is known.

A function is not refused where the prover says that its proof has no holes. In every other case it is not judged: its
text can't be read, the borrow checker refuses it or does not cover it, an invariant fits no more, or the prover was
killed, met a limit or a fault of its own.

A wrong algorithm is refused if exactly the lemmas fail that its edit names, and if each other error follows from these.
"""

import collections
import re
import signal

REFUSED, PASSED, UNJUDGED, UNCLEAR = "refused", "not refused", "not judged", "unclear"

# The name of an answer for no goal. A function that is to be refused has one, as twins.py says. Its error is no failure.
NO_GOAL = "no_goal"

PLACE = r"(?:\./)?((?:src|specs|proofs)/\S+?)(?::(\d+):(\d+))?: "
ERROR = re.compile(PLACE + r"error(?:\[([\w-]+)\])?: (?:`([^`]*)`: )?(.*)")
OPEN = re.compile(r"note: " + PLACE + r"(it is not proved that .*?\(`([^`]+)`\).*)")
UNASKED = re.compile(r"note: " + PLACE + r"`([^`]+)` is (no name that rattle asks for .*)")
END = re.compile(r"fn \w+::(\S+): (.*)")
LEFT = re.compile(r"no proof: expected answers in \S+; `search` did not prove (.*)")
UNTRIED = re.compile(r"note: `search` has not tried the goals of (.*), which wait")
LAST = re.compile(r"(?:only|logic|holes)=")
# How the proof of a function ended of which each own goal is proved, whatever it calls.
PROVED = re.compile(r"no holes|proved|depends on a hole in |not proved; it calls ")
# What the prover says where it is at fault itself, and where it gave up.
FAULT = re.compile(r"internal (?:compiler )?error|\binternal: |panicked at|please report|bug in rattle|bug of antt")
LIMIT = re.compile(r"antt ran out of (?:stack|the (?:steps|memory))|(?:outgrew the memory limit|stopped at the step limit) \(")
# What only follows from another error.
DEPENDS = r"\d+ declarations? that depend"
FOLLOWS = re.compile(DEPENDS + r"|(?:was|is) not admitted")
SEARCH = re.compile(r"`(?:search|grind|omega)`(?:: | stopped at its own limit| builds no proof here)")
BREAKS = re.compile(r"values at which this goal is false|the goal fails")
ALL_TRIED = re.compile(r"Every way was tried")
# That the values do not keep all equations that the search knows.
UNSURE = re.compile(r"these may not break the goal")
# That a search stopped at its own limit. Values that it names do not break the goal by all facts.
MAY_HOLD = re.compile(r"so the goal may hold")
# That an answer is for no goal any more.
GONE = re.compile(r"Goals` has no `[^`]+` that can be named from here|no name that rattle asks for")
# That the text of a wrong algorithm can't be read.
UNREADABLE = re.compile(r"is not in scope|has no field|is no name|operand is missing|expected the end")
# By which parts the type that is wanted and that of an answer differ, and the two types.
DIFFER = (re.compile(r"differ.*? where one has `(.*?)`\s+\(expected\).*?the other has `(.*?)`\s+\(found\)"),
          re.compile(r"expected type `(.*?)`\s+but this has type `(.*?)`"))
# The values of which a term speaks, and any name in it.
VALUE = re.compile(r"(?<![\w.])c\.[^\s()\[\]`,]+|(?<![\w.-])\d+(?![\w.-])")
NAME = re.compile(r"[^\s()\[\]`,]+")


class Error:
    """What was refused: the file and the place in it, the word of the compiler's error, the name of the goal, and what was
    said, of which `first` is the first line."""

    def __init__(self, file, line, column, code, name, said):
        self.file, self.line, self.column = file, int(line or 0) - 1, int(column or 0) - 1
        self.code, self.name, self.said, self.first = code, name, said, said
        self.follows, self.is_unasked = bool(FOLLOWS.search(said)), False

    def is_at(self, function):
        """Whether it stands in a function, in its closures or in the files of its proof."""
        if self.file == function.file:
            return function.first <= self.line <= function.last
        at = self.file.removeprefix("proofs/")
        return at.startswith((f"{function.folder()}/", f"{function.closures()}/"))

    def is_answer(self):
        """Whether it is at an answer by hand."""
        return bool(self.name) and self.file.endswith(("/Answers.antt", "/Proof.antt"))

    def shown(self):
        """The error as it is printed."""
        return f"{self.file}: {self.name or self.code or ''}: {self.said}"


class Said:
    """What a check said: its errors, the goals that the search left open, how the proof of each function ended, and why no
    function was judged, if so."""

    def __init__(self, status, text, aside=()):
        self.status, self.errors, self.goals, self.ends, self.faults, self.untried = status, [], [], {}, [], ""
        self.aside = aside
        lines = text.rstrip("\n").split("\n")
        is_error = False
        for line in lines:
            if line.startswith("  "):
                if is_error:
                    self.errors[-1].said += line[1:]
                continue
            before = len(self.errors)
            self.take(line)
            is_error = len(self.errors) > before
        self.stop = self.why_stopped(lines[-1])

    def take(self, line):
        """Takes one line."""
        if at := ERROR.fullmatch(line):
            self.errors += [Error(*at.groups())] if at[5] != NO_GOAL and (at[1], at[5]) not in self.aside else []
        elif at := OPEN.match(line):
            self.goals.append(Error(*at.groups()[:3], None, at[5], at[4]))
        elif (at := UNASKED.match(line)) and (at[1], at[4]) not in self.aside:
            self.errors.append(Error(*at.groups()[:3], None, at[4], at[5]))
            self.errors[-1].is_unasked = True
        elif at := END.fullmatch(line):
            self.ends[at[1]] = at[2]
        elif at := UNTRIED.match(line):
            self.untried += at[1]
        elif FAULT.search(line):
            self.faults.append(line)

    def why_stopped(self, last):
        """Why no function was judged; nothing if they were."""
        if self.status < 0:
            return f"the prover was killed by {signal.Signals(-self.status).name}"
        if self.status not in (0, 1):
            return f"the prover ended with status {self.status}: {[*self.faults, last][0][:300]}"
        if refused := next((it for it in self.errors if it.code), None):
            return f"the compiler refuses it: {refused.shown()}"
        return "" if LAST.match(last) else f"the prover came to no end: {last[:300]}"

    def uncompiled(self, function):
        """What the compiler or its borrow checker refuses in a function."""
        return next((f"the compiler refuses it: {it.shown()}" for it in self.errors if it.code and it.is_at(function)), "")

    def ended(self, function):
        """How the proofs of a function and of its closures ended."""
        inner = function.closures().replace("/", "::") + "::"
        return [end for path, end in self.ends.items() if path == function.path or path.startswith(inner)]

    def open_goals(self, function):
        """The goals of a function that the search did not prove, by their names, with what was said of each."""
        found = {it.name: it.shown() for it in self.goals if it.is_at(function)}
        for end in self.ended(function):
            if at := LEFT.match(end):
                for name in re.findall(r"`([^`]+)`", at[1]):
                    found.setdefault(name, f"{function.file}: {name}: `search` did not prove it")
        return found

    def fault_at(self, function):
        """What the prover says of its own fault at a function; nothing if there is none."""
        return next((it for it in self.faults if f"{function.path}`" in it or f"{function.folder()}/" in it), "")

    def why_unproved(self, function):
        """Why a function of which no goal failed is not known to be proved; nothing if it is."""
        if function.path not in self.ends:
            return "the prover says nothing of it"
        if f"{function.path}`" in self.untried:
            return "the search did not try its goals"
        return next((f"{function.path}: {it[:300]}" for it in self.ended(function) if not PROVED.match(it)), "")


def is_whole(error, text):
    """Whether an answer that failed is one search for its goal, by the text of its file."""
    lines = text.split("\n")
    if not 0 <= error.line < len(lines):
        return False
    before = lines[error.line][: error.column].strip()
    return bool(re.fullmatch(r"\S+(?: \w+)* =", before or lines[error.line - 1].strip()))


def speaks_of(term):
    """The values of which a term speaks, each as often as it does; its names where it has none."""
    return collections.Counter(VALUE.findall(term) or NAME.findall(term))


def is_clear(error, text):
    """Whether an answer failed for what its goal says, and not for its own form."""
    if SEARCH.match(error.said):
        return bool(BREAKS.search(error.said)) or is_whole(error, text)
    pairs = [at.groups() for it in DIFFER if (at := it.search(error.said))]
    return bool(pairs) and all(speaks_of(wanted) != speaks_of(found) for wanted, found in pairs)


def failures(said, function):
    """What failed of the answers by hand of a function."""
    return [it for it in said.errors if it.is_at(function) and it.is_answer() and not it.follows]


def refusals(said, function, text_of):
    """What was said of the goals of a function that are false, those first that values break. An open goal may have
    another name than an answer that is for no goal any more, and then only values break it."""
    is_gone = any(GONE.search(it.said) for it in failures(said, function))
    left = [it for it in said.open_goals(function).values() if not is_gone or BREAKS.search(it)]
    clear = [it.shown() for it in failures(said, function) if is_clear(it, text_of(it.file))]
    return sorted([*left, *clear], key=lambda it: not BREAKS.search(it))


def judged(said, function, text_of):
    """The verdict on a function, and what to say. `text_of` gives the text of a file that was checked."""
    own = [it for it in said.errors if it.is_at(function) and not it.follows]
    if unfit := next((it for it in own if not it.file.endswith("/Answers.antt") and not it.is_answer()), None):
        return UNJUDGED, f"what its goals rest on is not read: {unfit.shown()}"
    if fault := said.fault_at(function) or next((it.shown() for it in own if FAULT.search(it.said)), ""):
        return UNJUDGED, f"the prover is at fault itself: {fault}"
    if refused := refusals(said, function, text_of):
        return REFUSED, refused[0]
    if limit := next((it for it in own if LIMIT.search(it.said)), None):
        return UNJUDGED, f"the prover gave up: {limit.shown()}"
    if failed := [it for it in own if not it.is_unasked or said.open_goals(function)]:
        return UNCLEAR, failed[0].shown()
    why = said.why_unproved(function)
    return (UNJUDGED, why) if why else (PASSED, f"{function.path}: {said.ends[function.path]}")


def is_sure(said):
    """Whether what a search said shows that its goal is false: values break it, or it tried every way."""
    return bool(BREAKS.search(said) and not UNSURE.search(said) or ALL_TRIED.search(said))


def shows_false(said):
    """Whether what was said of an edit's own answer shows that its goal is false: a search that stopped at its own limit
    shows that only if every way was tried."""
    return is_sure(said) and bool(ALL_TRIED.search(said) or not MAY_HOLD.search(said))


def judged_again(said, function, text_of, before):
    """The verdict on a function by a second check, with a search in the place of each answer of which it was said before
    that it failed."""
    kind, why = judged(said, function, text_of)
    if kind == PASSED:
        return PASSED, f"an answer fits no more, and its goal is true: {before}"
    if sure := [it for it in refusals(said, function, text_of) if is_sure(it)]:
        return REFUSED, sure[0]
    return UNJUDGED, f"an answer fits no more, and nothing says that its goal is false: {before}"


def failed_answers(said, function):
    """The names of the answers of a function that failed, and of each whether it is for no goal any more; and the names of
    the goals that are open."""
    found = {}
    for it in failures(said, function):
        found[it.name] = found.get(it.name, False) or bool(GONE.search(it.said))
    return found, list(said.open_goals(function))


def judged_at(lemmas, said, text):
    """Whether the prover refused a wrong algorithm at these lemmas and nowhere else, and what to say."""
    refused, elsewhere = {}, []
    for it in said.errors:
        if it.code or it.is_unasked or it.line < 0:
            continue
        if UNREADABLE.search(it.first):
            return False, f"the edited text can't be read: {it.first}"
        if it.name:
            refused.setdefault(it.name, f"`{it.name}`: {it.said}")
        elif not re.match(DEPENDS, it.first):
            elsewhere.append(f"{it.file}: {it.first}")
    if said.status < 0:
        return False, f"NOT JUDGED: {said.stop}"
    if said.status == 0:
        return False, "NOT REFUSED: the crate is still proved"
    if set(refused) != lemmas or elsewhere:
        return False, "refused elsewhere: " + "; ".join([*sorted(refused), *elsewhere, text[-300:] if not refused else ""])
    return True, "refused at " + "; ".join(it[:300] for it in refused.values())
