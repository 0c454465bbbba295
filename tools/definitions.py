"""Which definitions of specs/ a reader of the public contracts meets.

A definition is an `abbrev`, a `record` or a `data` of crates/*/specs. It is met where a clause of a public function
names it, or a ghost member of a public trait or the view of a public type, or a definition that is met itself. What
a type keeps, its invariant, is its private word. A lemma is none: what it says stands in the trait's member that it
is given for, and how it is proved no reader needs.

What is met stands in specs itself; below it, laws has the proofs of laws that are given for a trait's members, with
their words, and private the words of inner functions and of what types keep.
"""

import collections
import re

NAME = r"[A-Za-z_][\w'-]*"
WORD = re.compile(NAME)
USE = re.compile(r"^\s*(?:pub )?(?:ghost )?use Rattle\.(\w+)\.specs\.((?:\w+\.)*\w+)\.\{(.*?)\}", re.M | re.S)
DECLARED = re.compile(rf"(abbrev |unfoldable )?(?:pub )?(record |data )?(?:pub )?({NAME})(?=\s|$)")
EXPORT = re.compile(r"^pub use (?:\w+::)+(?:\{(.*?)\}|(\w+));", re.M | re.S)
IMPL = re.compile(r"^impl(?:<.*?>+)? (?:.* for )?(?:&(?:mut )?)?(?:\w+::)*(\w+)")
ITEM = re.compile(r"^(pub )?(?:const |unsafe )*(?:struct|enum|trait|type|fn) (\w+)")
INVARIANT = re.compile(r"^ +ghost invariant = \{.*?\};\n", re.M | re.S)
FN = re.compile(r"^(\s*)(pub |pub\(crate\) )?(?:const |unsafe )*fn \w+")

# Where a definition stands: its crate, its file, its name.
Place = collections.namedtuple("Place", "crate file name")


class Declared:
    """A declaration of a file of specs: its kind, empty for a lemma, and its text."""

    def __init__(self, kind):
        self.kind = kind
        self.text = ""


def uses(text):
    """What each imported name stands for."""
    found = {}
    for crate, file, names in USE.findall(text):
        for name in names.split(","):
            words = name.split()
            if words:
                found[words[-1]] = Place(crate, file, words[0])
    return found


def declarations(text):
    """The declarations of a file of specs, by their names. A module's line belongs to each inside it."""
    found, modules, now = {}, [], None
    for line in text.splitlines():
        bare = line.strip()
        indent = len(line) - len(line.lstrip())
        if not bare or bare.startswith(("--", "use ", "pub use ", "pub mod ", "mod ", "unfolding ")):
            continue
        while modules and indent < modules[-1][0]:
            modules.pop()
        if bare.startswith("module "):
            modules.append((indent + 2, line))
            now = None
            continue
        start = DECLARED.match(bare) if indent == (modules[-1][0] if modules else 0) else None
        if start:
            abbrev, kind, name = start.groups()
            now = found.setdefault(name, Declared((abbrev or kind or "").strip()))
            now.text += "".join(f"{header}\n" for _, header in modules)
        if now:
            now.text += line.partition(" -- ")[0] + "\n"
    return found


class Specs:
    """All declarations of the specs of all crates."""

    def __init__(self, top):
        self.top, self.declared, self.imports, self.constructed = top, {}, {}, {}
        for path in sorted(top.glob("crates/*/specs/**/*.antt")):
            crate, _, *inner = path.relative_to(top / "crates").with_suffix("").parts
            file = (crate, ".".join(inner))
            text = path.read_text(encoding="utf-8")
            self.imports[file] = uses(text)
            for name, one in declarations(text).items():
                self.declared[Place(*file, name)] = one
                if one.kind == "data":
                    for constructor in re.findall(rf"^ +({NAME}) : ", one.text, re.M):
                        self.constructed[Place(*file, constructor)] = Place(*file, name)

    def definitions(self):
        """Where all definitions stand."""
        return {place for place, one in self.declared.items() if one.kind}

    def named(self, words, imports, file=None):
        """The declarations that these words name, in a file with these imports."""
        found = set()
        for word in words:
            place = imports.get(word) or (Place(*file, word) if file else None)
            if place not in self.declared:
                place = self.constructed.get(place)
            if place:
                found.add(place)
        return found

    def closed(self, start):
        """The definitions that are met from these declarations on."""
        found, open_ones = set(), list(start)
        while open_ones:
            place = open_ones.pop()
            if place in found or not self.declared[place].kind:
                continue
            found.add(place)
            file = (place.crate, place.file)
            open_ones += self.named(WORD.findall(self.declared[place].text), self.imports[file], file)
        return found

    def misplaced(self, met):
        """What stands in another folder than its own: what is met belongs in specs itself, all else below it."""
        found, held = [], self.lemmas_in(met)
        for place, one in sorted(self.declared.items()):
            inner = "." in place.file
            if inner and place in met:
                found.append((place, "public contracts lead to it"))
            elif not inner and place not in met and place not in held:
                found.append((place, "no public contract leads to it" if one.kind else "it is a lemma"))
        return found

    def lemmas_in(self, places):
        """The lemmas that these definitions hold, which stand beside them."""
        found = set()
        for place in places:
            file = (place.crate, place.file)
            named = self.named(WORD.findall(self.declared[place].text), self.imports[file], file)
            found |= {it for it in named if not self.declared[it].kind}
        return found

    def met_by_crate(self):
        """The definitions that each crate's public contracts lead to, by the crates' names."""
        crates = sorted(path for path in (self.top / "crates").iterdir() if (path / "src").is_dir())
        return {crate.name: self.closed(reached(self, crate)) for crate in crates}


def exported(crate):
    """The names that a library hands out; None for a program, whose public items all count."""
    library = crate / "src" / "lib.rt"
    if not library.exists():
        return None
    found = set()
    for several, one in EXPORT.findall(library.read_text(encoding="utf-8")):
        found |= {name.split()[-1] for name in several.split(",") if name.split()} | ({one} if one else set())
    return found


def subject(line):
    """The name of the type, trait or function that an item at the left edge is about, and whether it is public."""
    of_impl = IMPL.match(line)
    if of_impl:
        return of_impl[1], True
    item = ITEM.match(line)
    return (item[2], bool(item[1])) if item else (None, False)


class PublicText:
    """The public part of a source, line by line: the heads of its public functions, and all else of its public types and
    traits. It relies on the layout of rt fmt. Tests are left out, and so are bodies."""

    def __init__(self, names):
        self.names, self.kept, self.public, self.inherent, self.testing = names, [], False, False, False
        self.header, self.shown, self.depth, self.end = False, False, 0, None

    def take(self, line):
        """Takes the next line."""
        bare = line.strip()
        if self.end is not None:
            self.end = None if line == self.end else self.end
            return
        if not bare or bare.startswith("//") or "use Rattle." in line:
            return
        if line[0] not in " {})#" and not line.startswith("where") and self.is_test(line):
            return
        self.testing = self.testing or line == "#[cfg(test)]"
        if start := FN.match(line):
            self.header, self.depth = True, 0
            self.shown = self.public and (start[2] == "pub " or not self.inherent)
        if self.shown if self.header else self.public:
            self.kept.append(line)
        self.look_for_end(line, bare)

    def is_test(self, line):
        """Begins an item. Whether it is a test, which is left out."""
        name, self.public = subject(line)
        self.public = self.public and (self.names is None or name in self.names)
        self.inherent = line.startswith("impl") and " for " not in line
        if not self.testing:
            return False
        self.end = "}" if line.rstrip().endswith("{") else self.end
        self.public = self.testing = False
        return True

    def look_for_end(self, line, bare):
        """Ends the head of a function after its last line, and leaves out the body."""
        if self.header and (self.depth or bare.startswith(("ensures", "requires"))):
            self.depth += line.count("{") - line.count("}")
            self.header = self.depth > 0 or not bare.endswith(";")
        elif self.header and bare.endswith(("{", "}", ";")):
            self.header = False
            self.end = f"{line[:len(line) - len(bare)]}}}" if bare.endswith("{") else None


def public_text(text, names):
    """The public part of a source, without invariants, if a crate hands out these names."""
    found = PublicText(names)
    for line in INVARIANT.sub("", text).splitlines():
        found.take(line)
    return "\n".join(found.kept)


def reached(specs, crate):
    """The declarations that a crate's public contracts name."""
    found, names = set(), exported(crate)
    for path in sorted((crate / "src").rglob("*.rt")):
        text = path.read_text(encoding="utf-8")
        found |= specs.named(WORD.findall(public_text(text, names)), uses(text))
    return found
