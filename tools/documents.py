#!/usr/bin/env python3
"""Whether the documents name what is there, in sentences that can be read at once.

The documents are README.md, docs/*.md, bench/README.md and the README.md files below examples/ and of the crates. It tells

- each name in backticks that isn't there: a file, a folder, an option, or a word of code, definitions, proofs and tools
- each name that is said to be a crate's and isn't: "`IsMember` of `xform_rules`", and the calls of a crate in
  docs/PROVED.md
- each name in the promises of a crate's README that is in no crate on which it stands, and each clause that isn't its own
- each line of Rust of docs/PROOFS.md that isn't in the sources
- each link whose file or heading isn't there
- each README of a crate that lacks one of its four headings, and each function that the crate lets out and its README
  doesn't name
- what tools/definitions.py tells of docs/DEFINITIONS.md, and each page of docs/ to which README.md has no link
- each sentence of more than 35 words, in which what stands in backticks counts as one word

Its status is 1 where there is a fault. A long sentence is one in README.md alone; elsewhere it is only printed.

Usage: tools/documents.py
"""
import re
import sys
from pathlib import Path

import definitions
from definitions import CRATES, TOP

LONGEST = 35
HEADINGS = ["Proved", "Required", "Assumed", "Tested only"]
NOT_READ = {".git", ".orca", "out", "__pycache__"}
SOURCES = {".rt", ".antt", ".edit", ".py", ".sh", ".c", ".sql", ".json", ".txt", ""}
COMMENT = {".rt": "//", ".antt": "--", ".py": "#", ".sh": "#"}

# What stands in backticks and is no word of this repository: those of the toolchain, of examples on paper, and FACT,
# which stands for any fact.
FOREIGN = set("rt rattle kit logic TopN FACT".split())

FENCE = re.compile(r"^```.*?^```[^\n]*$", re.M | re.S)
SPAN = re.compile(r"`([^`\n]+)`")
LINK = re.compile(r"\[([^\]\[]*(?:`[^`]*`[^\]\[]*)*)\]\(([^)\s]+)\)")
WORD = re.compile(r"[A-Za-z_]\w*")
OPTION = re.compile(r"(?<![\w-])--[a-z][\w-]*")
PATH = re.compile(r"[\w.*@-]*(?:/[\w.*@-]*)+")
FILE = re.compile(r"[\w*-]+\.(?:antt|rt|md|py|sh|c|sql|svg|json|txt|edit)")
# The files that a reader of the documents has or makes.
MADE = {"query.sql", "report.dump", "before.txt", "after.txt", "products_first.sql", "products_first.txt"}

# The crates whose functions are too many to be named: each is a query for tests.
UNNAMED = {"worked_queries"}

HASH = re.compile(r"[0-9a-f]{16}")
OF_CRATE = re.compile(r"`([A-Za-z_]\w*(?:::\w+)?)` (?:of|from) `(\w+)`")
CLAUSES = re.compile(r"[Cc]lauses? ((?:`\w+`(?:, | and )?)+)")


def relative(path):
    return str(path.relative_to(TOP))


def documents():
    """The documents, that of the whole first."""
    patterns = ["README.md", "docs/*.md", "examples/**/README.md", "bench/README.md", "crates/*/README.md"]
    return [path for pattern in patterns for path in sorted(TOP.glob(pattern))]


def standing_on():
    """Of each crate of crates.txt itself and all crates on which it stands."""
    on = {}
    for line in (TOP / "crates.txt").read_text().split("\n"):
        names = WORD.findall(line.partition(":")[2])
        crate = re.match(r"\w+", line)
        if crate:
            on[crate.group(0)] = {crate.group(0)}.union(*(on.get(name, {name}) for name in names))
    return on


def files():
    """All files and folders of the repository, but for those that a build makes."""
    found, todo = [], [TOP]
    while todo:
        for path in sorted(todo.pop().iterdir()):
            if path.name not in NOT_READ:
                found.append(path)
                if path.is_dir():
                    todo.append(path)
    return found


def without_comments(path, text):
    """The text without the lines that are comments: what a comment alone says isn't there."""
    mark = COMMENT.get(path.suffix)
    return text if mark is None else "\n".join(line for line in text.split("\n") if not line.lstrip().startswith(mark))


class Repository:
    """What documents may name."""

    def __init__(self):
        self.names, self.words, self.options, self.rust = set(), set(FOREIGN), set(), ""
        self.of_crate = {path.name: set() for path in CRATES.iterdir()}
        self.below = standing_on()
        self.paths = {crate: [] for crate in self.of_crate}
        for path in files():
            self.names.add(path.name)
            self.words |= set(WORD.findall(path.stem))
            parts = path.relative_to(TOP).parts
            crate = parts[1] if parts[0] == "crates" and len(parts) > 2 else None
            if crate:
                self.paths[crate].append(path)
                self.of_crate[crate].add(path.stem)
            if path.is_file() and path.suffix in SOURCES and path.name != "documents_test.py":
                self.add(path, crate)

    def add(self, path, crate):
        text = without_comments(path, path.read_text(errors="replace"))
        words = set(WORD.findall(text))
        self.words |= words
        self.options |= set(OPTION.findall(text))
        if crate:
            self.of_crate[crate] |= words
        if path.suffix == ".rt":
            self.rust += " ".join(path.read_text().split()) + "\n"

    def has_path(self, word, document, crates=()):
        """Whether a path is there: from the document's folder, the top or that of the crates, or the end of a path in
        one of some crates. What a build makes needn't be there."""
        name = word[2:].rstrip("/") if word.startswith("./") else word.rstrip("/")
        if not name or name.startswith("/"):
            return False
        if NOT_READ & set(name.split("/")):
            return True
        if "/" not in name and word.endswith("/"):
            return name in self.names
        return (any(next(iter(folder.glob(name)), None) for folder in {document.parent, TOP, CRATES})
                or any(path.match(name) for crate in crates for path in self.paths[crate]))

    def has_file(self, word):
        return any(Path(name).match(word) for name in self.names) if "*" in word else word in self.names

    def has_name(self, name):
        """Whether a word is there, or one of which this is the beginning or the end."""
        if name.endswith("_"):
            return any(word.startswith(name) for word in self.words)
        if name.startswith("_"):
            return any(word.endswith(name) for word in self.words)
        return name in self.words

    def crates_by_line(self, text):
        """Of each line the crates that it is about: those that it names, and else those that the section named before. The
        row of a table without a first cell is about those of the row above, too."""
        above, section, found = [], [], []
        for line in text.split("\n"):
            named = [span for span in SPAN.findall(line) if span in self.of_crate]
            section = named if line.startswith("#") else section + named
            above = named + above if re.match(r"\| *\|", line) else named
            found.append(above or section)
        return found

    def lacks(self, span, document, crates):
        """The parts of what stands in backticks that aren't there."""
        for word in span.split():
            word = word.strip(",;:()[]|\\'\"")
            if word.lstrip(">") in MADE:
                continue
            if OPTION.fullmatch(word):
                if word not in self.options:
                    yield word
            elif PATH.fullmatch(word) and WORD.search(word):
                if not self.has_path(word, document, crates):
                    yield word
            elif FILE.fullmatch(word):
                if not self.has_file(word):
                    yield word
            elif not HASH.fullmatch(word):
                yield from (name for name in WORD.findall(word) if len(name) > 1 and not self.has_name(name))


def line_of(text, place):
    return text.count("\n", 0, place) + 1


def blanked(pattern, text):
    """The text with what the pattern finds made blank, so that places stay."""
    return pattern.sub(lambda found: re.sub(r"[^\n]", " ", found.group(0)), text)


def slug(heading):
    """How a link names a heading."""
    return re.sub(r"[^\w\- ]", "", heading.strip().lower()).replace(" ", "-")


def headings(text):
    return [found.strip() for found in re.findall(r"^#+ (.*)$", FENCE.sub("", text), re.M)]


def blocks(text):
    """The paragraphs, the items of lists and the cells of tables, each with its line. No headings, no code."""
    text = blanked(FENCE, text)
    part, start = [], 0
    for number, line in enumerate(text.split("\n") + [""], 1):
        bare = line.strip()
        begins = not bare or bare.startswith(("#", "|", "!")) or re.match(r"(?:[-*]|\d+\.) ", bare)
        if begins and part:
            yield start, " ".join(part)
            part = []
        if bare.startswith("|"):
            yield from ((number, cell.strip()) for cell in re.split(r"(?<!\\)\|", bare) if cell.strip(" -:"))
        elif bare and not bare.startswith(("#", "!")):
            part, start = part + [re.sub(r"^(?:[-*]|\d+\.) ", "", bare)], start if part else number


def plain(block):
    """The block as it is read: of a link its words, and what stands in backticks as one word."""
    block = LINK.sub(lambda found: found.group(1), block)
    return SPAN.sub("NAME", block).replace("*", "")


def sentences(block):
    return [part for part in re.split(r"(?<=[.?!])[)\"]?\s+", plain(block)) if part.strip()]


def words_of(sentence):
    return [word for word in sentence.split() if re.search(r"\w", word)]


def long_sentences(text):
    """Those of too many words, with their line and the number of words."""
    for line, block in blocks(text):
        for sentence in sentences(block):
            count = len(words_of(sentence))
            if count > LONGEST:
                yield line, count, sentence


def link_faults(document, text):
    for found in LINK.finditer(blanked(FENCE, text)):
        target, _, anchor = found.group(2).partition("#")
        if re.match(r"[a-z]+:", target):
            continue
        path = (document.parent / target) if target else document
        if not path.exists():
            yield line_of(text, found.start()), f"no {target}"
        elif anchor and anchor not in map(slug, headings(path.read_text())):
            yield line_of(text, found.start()), f"no heading {anchor} in {target or document.name}"


def command_faults(repository, document, text):
    """The paths that commands in code name. What a command writes needn't be there."""
    for fence in FENCE.finditer(text):
        for at, line in enumerate(fence.group(0).split("\n")):
            command = re.match(r"(?:\$ )?((?:\./|tools/|bench/)\S.*)", line)
            for word in re.sub(r"(?:>|--svg) *\S+", "", command.group(1)).split() if command else []:
                if PATH.fullmatch(word) and not repository.has_path(word, document):
                    yield line_of(text, fence.start()) + at, f"no {word}"


def name_faults(repository, document, text):
    crates = repository.crates_by_line(text)
    for found in SPAN.finditer(blanked(FENCE, text)):
        line = line_of(text, found.start())
        for word in repository.lacks(found.group(1), document, crates[line - 1]):
            yield line, f"no {word} (`{found.group(1)}`)"


def owner_faults(repository, text):
    """The names that are said to be of a crate that hasn't them."""
    for found in OF_CRATE.finditer(blanked(FENCE, text)):
        there = repository.of_crate.get(found.group(2))
        lacking = [] if there is None else [name for name in WORD.findall(found.group(1)) if name not in there]
        yield from ((line_of(text, found.start()), f"no {name} in {found.group(2)}") for name in lacking)


def excerpt_faults(repository, text):
    """The excerpts of code that aren't in the sources as they are shown; `..` stands for what is left out."""
    for fence in re.finditer(r"^```rust\n(.*?)^```", text, re.M | re.S):
        for part in fence.group(1).split(".."):
            if " ".join(part.split()) not in repository.rust:
                yield line_of(text, fence.start()), f"no such code: {part.strip()}"


def public_words(repository, crate):
    """The names that a crate lets out, and the words of what they are. A program lets out none: of it they are all."""
    if not (CRATES / crate / "src" / "lib.rt").exists():
        return repository.of_crate[crate]
    texts = [public for _, public in definitions.public_text(crate)]
    return definitions.let_out(crate)[0] | {word for text in texts for word in WORD.findall(text)}


def call_faults(repository, text):
    """The calls of docs/PROVED.md that their crate doesn't let out."""
    for number, line in enumerate(text.split("\n"), 1):
        crates = re.findall(r"\*\*(\w+)\*\*", line.split(":")[0])
        calls = re.search(r"(?:Calls?|Traits): (.*)", line)
        if crates and calls:
            there = {word for crate in crates for word in public_words(repository, crate)}
            names = [name for span in SPAN.findall(calls.group(1)) for name in WORD.findall(span)]
            yield from ((number, f"no {name} let out by {', '.join(crates)}") for name in names if name not in there)


def promise_faults(repository, crate, text):
    """The names of a README's promises that are in no crate on which this one stands."""
    below = repository.below.get(crate, {crate})
    there = set(repository.below).union(*(repository.of_crate.get(name, set()) for name in below))
    start, end = text.find("## Proved"), text.find("## Required")
    for found in SPAN.finditer(blanked(OF_CRATE, text), max(start, 0), max(end, 0)):
        if not PATH.fullmatch(found.group(1)) and not FILE.fullmatch(found.group(1)):
            names = [name for name in WORD.findall(found.group(1)) if len(name) > 1 and name not in there]
            yield from ((line_of(text, found.start()), f"no {name} below {crate}") for name in names)


def readme_faults(repository, document, text):
    """A crate's README: its headings, and the names and clauses of its promises."""
    crate = document.parent.name
    lacking = [heading for heading in HEADINGS if heading not in headings(text)]
    yield from ((1, f"no heading {heading}") for heading in lacking)
    yield from promise_faults(repository, crate, text)
    for found in CLAUSES.finditer(blanked(FENCE, text)):
        names = [name for name in SPAN.findall(found.group(1)) if name not in repository.of_crate[crate]]
        yield from ((line_of(text, found.start()), f"no clause {name}") for name in names)


def faults_of(repository, document, text):
    """What is wrong with a document, with the lines."""
    yield from name_faults(repository, document, text)
    yield from owner_faults(repository, text)
    yield from link_faults(document, text)
    yield from command_faults(repository, document, text)
    if document.name == "PROOFS.md":
        yield from excerpt_faults(repository, text)
    if document.name == "PROVED.md":
        yield from call_faults(repository, text)
    if document.parent.parent == CRATES:
        yield from readme_faults(repository, document, text)


def unnamed(crate, text):
    """The functions that a crate lets out and the text of its README doesn't name."""
    said = {name for span in SPAN.findall(text) for name in WORD.findall(span)}
    return sorted(name for name in definitions.let_out(crate)[0] - said if name[:1].islower() and crate not in UNNAMED)


def unnamed_faults():
    for document in sorted(CRATES.glob("*/README.md")):
        for name in unnamed(document.parent.name, document.read_text()):
            yield f"{relative(document)}: {name} isn't named"


def unlisted_faults():
    """The pages to which README.md has no link."""
    links = {target.partition("#")[0] for _, target in LINK.findall((TOP / "README.md").read_text())}
    return [f"README.md: no link to {relative(page)}" for page in documents()
            if page.parent == TOP / "docs" and relative(page) not in links]


def told():
    """What is told of all documents: faults, and sentences that are too long but no fault."""
    repository, long = Repository(), []
    faults = definitions.faults() + list(unnamed_faults()) + unlisted_faults()
    for document in documents():
        text = document.read_text()
        faults += [f"{relative(document)}:{line}: {what}" for line, what in faults_of(repository, document, text)]
        to = faults if document == TOP / "README.md" else long
        to += [f"{relative(document)}:{line}: {count} words: {sentence}"
               for line, count, sentence in long_sentences(text)]
    return faults, long


def main():
    faults, long = told()
    for line in faults + long:
        print(line)
    print(f"{len(documents())} documents, {len(faults)} faults, {len(long)} sentences of more than {LONGEST} words")
    return 1 if faults else 0


if __name__ == "__main__":
    sys.exit(main())
