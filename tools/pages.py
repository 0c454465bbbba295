"""Reads pages of Markdown: their blocks, sentences, links and the anchors of their headings.

Code, HTML comments and the targets of links are no prose. Each line of a page keeps its number.

>>> page = Page("# One `two`\\n\\nA *b*, see [here](x.md#y).\\nSo `c d`\\nis. E!\\n\\n- an item\\n  goes on\\n\\n| h |\\n|---|\\n| `a|b` c |\\n")
>>> [(block.kind, block.line, block.text) for block in page.blocks]
[('heading', 1, 'One `'), ('paragraph', 3, 'A b, see here.\\nSo `\\nis. E!'), ('item', 7, 'an item\\ngoes on'), ('header', 10, 'h'), ('cell', 12, '` c')]
>>> page.links
[(3, 'x.md#y')]
>>> sorted(page.anchors)
['one-two']
>>> list(sentences(page.blocks[1]))
[(3, 'A b, see here.'), (4, 'So ` is.'), (5, 'E!')]
>>> Page("```\\n[a](b)\\n# no\\n").faults
[(1, 'this block of code is not closed')]
"""

import collections
import re

FENCE = re.compile(r"^\s*(?:[-*+]\s+)?(`{3,}|~{3,})")
COMMENT = re.compile(r"<!--.*?(?:-->|\Z)", re.S)
CODE = re.compile(r"(?<!`)(`+)(?!`)(.+?)(?<!`)\1(?!`)", re.S)
LINK = re.compile(r"!?\[((?:[^][]|\[[^][]*\])*)\]\(\s*<?([^()\s<>]*(?:\([^()\s]*\)[^()\s]*)*)>?(?:\s+\"[^\"]*\")?\s*\)")
REFERENCE = re.compile(r"!?\[([^][]+)\]\[([^][]*)\]")
MEANT = re.compile(r"^ {0,3}\[([^][]+)\]:\s+<?(\S+?)>?(?:\s+\"[^\"]*\")?\s*$")
TAG = re.compile(r"</?[a-zA-Z][^<>]*>")
NAMED = re.compile(r"<[a-zA-Z][^<>]*\b(?:id|name)=[\"']([^\"']+)[\"']")
HEADING = re.compile(r"^ {0,3}(#{1,6})\s+(.*?)\s*#*\s*$")
ITEM = re.compile(r"^\s*(?:[-*+]|\d+[.)])\s+")
DELIMITER = re.compile(r"^\s*\|?(?:\s*:?-+:?\s*\|)+\s*(?::?-+:?\s*)?$")
BREAK = re.compile(r"^ {0,3}(?:-\s*){3,}$|^ {0,3}(?:\*\s*){3,}$|^ {0,3}(?:_\s*){3,}$")
SENTENCE_END = re.compile(r"(?<=[.!?])[\"')\]]*\s+(?=[\"'(\[]*[A-Z0-9`])")

# A block of prose: its kind, the number of its first line, its text without marks. A span of code is left as one `.
Block = collections.namedtuple("Block", "kind line text")


def lines_of(text):
    """The line ends of a text, which stay where the text itself goes."""
    return "\n" * text.count("\n")


def plain(text):
    """The words of a text that has no spans of code any more: without links' targets, tags and emphasis."""
    text = LINK.sub(lambda it: it[1], text)
    text = REFERENCE.sub(lambda it: it[1], text)
    text = TAG.sub("", text)
    return re.sub(r"\*+|(?<!\w)_+|_+(?!\w)", "", text).strip()


def anchor(heading):
    """The anchor of a heading, as the servers of repositories make it."""
    text = plain(CODE.sub(lambda it: it[2].replace("*", "\\*"), heading)).lower()
    return re.sub(r"[^\w\- ]", "", text).replace(" ", "-")


def cells(row):
    """The cells of a table's row, without the bars beside spans of code and escaped bars."""
    return [it.strip() for it in re.split(r"(?<!\\)\|", row.strip().strip("|"))]


class Page:
    """One page: its blocks, its relative and other links by line, its anchors, and what keeps it from being read."""

    def __init__(self, text):
        self.blocks, self.links, self.faults, self.anchors = [], [], [], set()
        self.end_of_first = None
        self.text = COMMENT.sub(lambda it: lines_of(it[0]), text)
        self.lines = self.text.split("\n")
        self.strip_code_blocks()
        self.read_anchors()
        bare = CODE.sub(lambda it: "`" + lines_of(it[2]), "\n".join(self.lines))
        self.read_links(bare)
        self.read_blocks(bare.split("\n"))

    def strip_code_blocks(self):
        """Empties the lines of blocks of code, fenced or indented, so that all else keeps its number."""
        fence, began, listed, before = "", 0, False, ""
        for at, line in enumerate(self.lines):
            found = FENCE.match(line)
            if fence:
                closes = found and found[1].startswith(fence) and line.strip() == found[1]
                fence = "" if closes else fence
                self.lines[at] = ""
            elif found:
                fence, began, self.lines[at] = found[1], at + 1, ""
            elif line.startswith("    ") and not before and not listed:
                self.lines[at] = ""
                continue
            if line.strip() and not line.startswith(" "):
                listed = bool(ITEM.match(line))
            before = self.lines[at].strip()
        if fence:
            self.faults.append((began, "this block of code is not closed"))

    def read_anchors(self):
        met = collections.Counter()
        for line in self.lines:
            heading = HEADING.match(line)
            if heading:
                name = anchor(heading[2])
                self.anchors.add(f"{name}-{met[name]}" if met[name] else name)
                met[name] += 1
            self.anchors |= set(NAMED.findall(line))

    def read_links(self, bare):
        meanings = {}
        for line in bare.split("\n"):
            meant = MEANT.match(line)
            if meant:
                meanings[meant[1].lower()] = meant[2]
        for found in LINK.finditer(bare):
            self.links.append((bare.count("\n", 0, found.start()) + 1, found[2]))
            inner = LINK.search(found[1])
            if inner:
                self.links.append((self.links[-1][0], inner[2]))
        for found in REFERENCE.finditer(bare):
            line, name = bare.count("\n", 0, found.start()) + 1, (found[2] or found[1]).lower()
            if name in meanings:
                self.links.append((line, meanings[name]))
            else:
                self.faults.append((line, f"no line says where [{name}] leads"))
        self.links.sort()

    def read_blocks(self, lines):
        opened = []
        def close():
            if opened:
                kind, line, text = opened.pop()
                self.blocks.append(Block(kind, line, plain("\n".join(text))))

        for number, line in enumerate(lines, 1):
            bare, heading, item = line.strip(), HEADING.match(line), ITEM.match(line)
            if BREAK.match(line) and self.end_of_first is None:
                self.end_of_first = number
            if not bare or heading or bare.startswith("|") or BREAK.match(line) or MEANT.match(line):
                close()
            if heading:
                self.blocks.append(Block("heading", number, plain(heading[2])))
            elif bare.startswith("|"):
                self.read_row(lines, number)
            elif bare.startswith(">"):
                if not opened or opened[0][0] != "quote":
                    close()
                    opened.append(("quote", number, []))
                opened[0][2].append(bare.lstrip("> "))
            elif item and not BREAK.match(line):
                close()
                opened.append(("item", number, [line[item.end():].strip()]))
            elif bare and not BREAK.match(line) and not MEANT.match(line):
                if not opened:
                    opened.append(("paragraph", number, []))
                opened[0][2].append(bare)
        close()

    def read_row(self, lines, number):
        """The cells of a table's row, each a block."""
        if DELIMITER.match(lines[number - 1]):
            return
        kind = "header" if number < len(lines) and DELIMITER.match(lines[number]) else "cell"
        self.blocks += [Block(kind, number, plain(cell)) for cell in cells(lines[number - 1]) if cell]


def sentences(block):
    """The sentences of a block, each with the number of the line that it begins in."""
    at = 0
    for end in [it for it in SENTENCE_END.finditer(block.text)] + [None]:
        stop = end.end() if end else len(block.text)
        text = block.text[at:stop]
        yield block.line + block.text.count("\n", 0, at), " ".join(text.split())
        at = stop


def words(sentence):
    """How many words a sentence has; a span of code is one."""
    return sum(1 for it in sentence.split() if re.search(r"\w|`", it))
