"""Answers by hand, and what stands in their place where one failed: a search over the lemmas that it cites."""

import re

USE = re.compile(r"use (Rattle\.[\w.]*\.proofs\.[\w.]+)\.\{(.*)\}$")
COMMON = "Rattle.std.proofs.Common"
# Of the common names those that a search takes; the others are types, operators and steps of proofs.
LISTS = ("rules", "arith")
DEFINED = re.compile(r"([^\s:]+) : ")
HEAD = re.compile(r"(\S+(?: \w+)*) =")
WORD = re.compile(r"[^\s()\[\]{},]+")


def blocks_of(text):
    """The lines of a file by the definition that they are of, in their order; `use` lines and comments by themselves."""
    found = []
    for line in text.split("\n"):
        name = line.removeprefix("pub ").split(" ")[0]
        if found and (not line[:1].strip() or line[0] in ")}]" or name == found[-1][0]):
            found[-1][1].append(line)
        else:
            found.append((name, [line]))
    return found


def lemmas_of(text):
    """The names in a file of answers that a search may take: the lemmas that it imports, and those of its own."""
    found = set()
    for line in text.split("\n"):
        if at := USE.fullmatch(line):
            names = set(at[2].split(", "))
            found |= names & set(LISTS) if at[1] == COMMON else names
        elif at := DEFINED.match(line):
            found.add(at[1])
    return found


def search_of(lines, lemmas):
    """A search over those of these lemmas that some lines cite."""
    cited = {word for line in lines for word in WORD.findall(line)} & lemmas
    return f"search ({', '.join(['rules', *sorted(cited - {'rules'})])})"


def searching(lines, lemmas):
    """The lines of an answer with a search in the place of what it says."""
    at = next((it for it, line in enumerate(lines) if it and HEAD.match(line)), 0)
    return [*lines[:at], f"{HEAD.match(lines[at])[1]} = {search_of(lines, lemmas)}", ""] if at else []


def answering(names, lines, lemmas):
    """The lines of answers for these goals, each a search, in the place of the answers of these lines."""
    head = next(filter(None, map(HEAD.match, lines)), None)
    words = f"{head[1].partition(' ')[2]} = {search_of(lines, lemmas)}" if head else ""
    return [it for name in names for it in (f"pub {name} : goal.{name}", f"{name} {words}", "")] if head else []


def searched(text, failed, opened=()):
    """The text of a file of answers in which a search is in the place of each that failed, by its name; those that are for
    no goal any more are left out, and these goals that are open have a search over what those cite."""
    lemmas, kept, gone = lemmas_of(text) - set(failed), [], []
    for name, lines in blocks_of(text):
        if failed.get(name):
            gone += lines
        else:
            kept += searching(lines, lemmas) if name in failed else lines
    return with_rules("\n".join([*kept, *answering(opened, gone, lemmas)]))


def with_rules(text):
    """The text of a file of answers that imports the common rules, as a search needs."""
    has_rules = re.search(r"^use .*Common\.\{(.*, )?rules[,}]", text, re.M)
    return text if has_rules else f"use {COMMON}.{{rules}}\n{text}"
