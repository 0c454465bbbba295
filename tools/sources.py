"""Where the functions of a crate's sources stand, in rt fmt's layout."""

import re

FN = re.compile(r"( *)(?:pub(?:\([^)]*\))? )?(?:const |unsafe )*fn (\w+)")
IMPL = re.compile(r"impl(?:<(?P<own>.*?)>)? (?:(?P<of>\w.*?) for )?(?P<for>[&\w].*?)(?: where .*)? \{\}?$")
HEAD = re.compile(r"impl\b|(?:pub(?:\([^)]*\))? )?trait ")
OWN = re.compile(r"(?:^|, )(\w+)(?=:|,|$)")
TYPE = re.compile(r"^(?:pub(?:\([^)]*\))? )?(?:struct|enum) (\w+)(<[^{(;]*)?", re.M)
WORD = re.compile(r"\w+")


class Function:
    """A function by its path below the crate, its lines in its file, from 0 and with its attributes, and whether a copy
    under another name may stand beside it."""

    def __init__(self, file, path, lines, may_have_twin):
        self.file, self.path, self.may_have_twin = file, path, may_have_twin
        self.first, self.body, self.last = lines

    def name(self):
        return self.path.rpartition("::")[2]

    def folder(self):
        """Where the files of its proof stand, below proofs."""
        return self.path.replace("::", "/")

    def closures(self):
        """Where those of its closures stand."""
        parts = self.path.split("::")
        depth = next((at for at, it in enumerate(parts) if it[:1].isupper()), len(parts) - 1)
        return "/".join([*parts[:depth], "fn", *parts[depth:]])


def module_of(file):
    """The path of a source file's module below the crate."""
    parts = file.removeprefix("src/").removesuffix(".rt").split("/")
    return [it for it in parts if it not in ("lib", "main", "mod")]


def spelled(text, own):
    """A type or a trait with what it is applied to as one name, as the prover spells it."""
    head, _, inside = text.partition("<")
    name = re.sub(r".*::", "", re.sub(r"^&('\w+ )?", "Ref", head))
    given = [it for it in WORD.findall(re.sub(r"'\w+", "", inside)) if it not in own]
    return name + "".join(it[:1].upper() + it[1:] for it in given)


def between(text):
    """What stands between the outer angle brackets of a text, but lifetimes."""
    found, depth = [""], 0
    for it in text.partition("<")[2].rpartition(">")[0]:
        depth += (it in "<[(") - (it in ">])")
        found += [""] if it == "," and not depth else []
        found[-1] += it
    return [it for it in (it.strip(", ") for it in found) if it and it[0] != "'"]


def of_itself(text, own, taken):
    """The name, as the prover spells it, of what a type that takes so many types has by itself, where it is applied so: its
    own name where it is applied to that many parameters, and else with the words that it is applied to."""
    name, given = text.partition("<")[0], between(text)
    if len(given) == taken and set(given) <= set(own):
        return name
    return "+".join([name, *WORD.findall(", ".join(given))])


def whole_head(lines, at):
    """The head of an `impl` or of a `trait` as one line, with what goes on below it, such as `where`, and the line behind
    it; of any other item its first line."""
    last = at
    while HEAD.match(lines[at]) and not lines[last].endswith(("{", "}", ";")) and last + 1 < len(lines):
        last += 1
    joined = " ".join(it.strip() for it in lines[at : last + 1])
    return re.sub(r",? ([>)])", r"\1", re.sub(r"([<(]) ", r"\1", joined)) if last > at else lines[at], last + 1


def owner_of(line, module, types):
    """The path that the head of an `impl` or of a `trait` gives its functions; what a type has by itself
    stands where the type does."""
    if found := IMPL.match(line):
        own = OWN.findall(found["own"] or "")
        if found["of"]:
            return [*module, spelled(found["for"], own) + spelled(found["of"], own)]
        places = types.get(found["for"].partition("<")[0], [(module, 0)])
        at, taken = next((it for it in places if it[0] == module), places[0])
        return [*at, of_itself(found["for"], own, taken)]
    named = re.match(r"(?:pub(?:\([^)]*\))? )?trait (\w+)", line)
    return [*module, named[1]] if named else []


def is_own(head):
    """Whether it is the head of an `impl` of what a type has by itself."""
    found = IMPL.match(head)
    return bool(found) and not found["of"]


def head_of(lines, at):
    """The last line of the head of the function at a line: where its body begins, or where it ends without one."""
    depth = 0
    for it in range(at, len(lines)):
        is_clause = lines[it].lstrip().startswith(("requires", "ensures", "ghost"))
        # A clause that goes on over several lines may have braces on each.
        if depth == 0 and not is_clause and re.search(r"(^| )\{(\}| .*\})?$", lines[it]):
            return it
        depth += lines[it].count("{") - lines[it].count("}")
        if depth == 0 and lines[it].endswith(";"):
            return it
    return at


def functions_in(file, text, types):
    """The functions of a source file that have a body, without those of its modules, such as tests."""
    lines, found, owner, module, inside = text.split("\n"), [], [], module_of(file), 0
    for at, line in enumerate(lines):
        if at >= inside and line[:1].strip() and line[0] not in "})":
            item, inside = whole_head(lines, at)
            owner = owner_of(item, module, types)
        head = FN.match(line)
        if not head or len(head[1]) != (4 if owner else 0):
            continue
        body = head_of(lines, at)
        if lines[body].endswith(";"):
            continue
        ends = (f"{head[1]}}}",)
        last = body if lines[body].endswith("}") else next(
            (it for it in range(body, len(lines)) if lines[it].startswith(ends)), at)
        path = "::".join([*(owner or module), head[2]])
        first = at
        while lines[first - 1].lstrip().startswith("#["):
            first -= 1
        # what a trait names has no copy, nor has a part of a cycle of calls, whose functions have one proof
        is_free = (not owner or is_own(item)) and "#[cycle" not in "".join(lines[first:at])
        found.append(Function(file, path, (first, body, last), is_free))
    return found


def functions_of(folder):
    """All functions of a crate, by their paths."""
    texts = {str(it.relative_to(folder)): it.read_text(encoding="utf-8") for it in sorted((folder / "src").rglob("*.rt"))}
    types = {}
    for file, text in texts.items():
        for name, takes in TYPE.findall(text):
            types.setdefault(name, []).append((module_of(file), len(between(takes))))
    found = [it for file, text in texts.items() for it in functions_in(file, text, types)]
    return {it.path: it for it in found}
