#!/usr/bin/env python3
"""Whether docs/DEFINITIONS.md names each specs file on which a public clause rests, and no file that isn't there.

A public clause is one of a function, a method, a trait or a model that the crate's lib.rt lets out. It rests on the
files whose words it cites, and on those whose words these cite. A section of the document names files of the crates
in its title. Its status is 1 where something is missing. tools/documents.py tells the same of it, beside all else that
it tells of the documents.
"""
import re
import sys
from pathlib import Path

TOP = Path(__file__).resolve().parent.parent
CRATES = TOP / "crates"
CITED = re.compile(r"Rattle\.(\w+)\.specs\.([A-Z]\w*)")
IMPORT = re.compile(r"use\s+Rattle\.(\w+)\.specs\.([A-Z]\w*)(?:\.\{([^}]*)\}|\s+as\s+(\w+))", re.S)
TRAIT = re.compile(r"^(?:pub(?:\(crate\))? )?trait (\w+)", re.M)
ITEM = re.compile(r"^pub (?:const )?(?:fn|struct|enum|trait) (\w+)", re.M)
IMPL = re.compile(r"^(?:unsafe )?impl\b[^\n]*", re.M)


def specs_files():
    return {(path.parts[-3], path.stem): path.read_text()
            for path in CRATES.glob("*/specs/*.antt") if path.stem != "Lib"}


def let_out(crate):
    """The names that lib.rt lets out, and its public modules."""
    text = (CRATES / crate / "src" / "lib.rt")
    if not text.exists():
        return set(), set()
    text = text.read_text()
    names = set()
    for group, single in re.findall(r"^pub use \w[\w:]*::(?:\{([^}]*)\}|(\w+));", text, re.M | re.S):
        for name in (group or single).split(","):
            names.add(name.split(" as ")[0].strip())
    return names, set(re.findall(r"^pub mod (\w+);", text, re.M))


def block_at(text, start):
    """An item from its first line to the brace that ends it, at the start of a line."""
    first = text[start:].split("\n", 1)[0]
    if first.endswith(";"):
        return first
    end = re.compile(r"^\}|^\{\}", re.M).search(text, start)
    return text[start:end.end() if end else len(text)]


def without_bodies(block):
    """The same without the bodies of functions: what stands between braces on lines of their own."""
    lines, depth_of = [], None
    for line in block.split("\n"):
        indent = len(line) - len(line.lstrip())
        if depth_of is None and line.strip() == "{":
            depth_of = indent
        elif depth_of is not None:
            if line.strip() == "}" and indent == depth_of:
                depth_of = None
        else:
            lines.append(line)
    return "\n".join(lines)


def public_methods(block):
    """The heads of public methods, or of all methods where the block is that of a trait's or a model's impl."""
    if " for " in block.split("\n")[0]:
        return without_bodies(block)
    kept, on = [], False
    for line in without_bodies(block).split("\n"):
        if re.match(r"^    (pub )?(const )?fn ", line):
            on = line.startswith("    pub ")
        if on:
            kept.append(line)
    return "\n".join(kept)


def public_text(crate):
    """Of each file the text of what is let out, with the file's imports."""
    names, modules = let_out(crate)
    texts = {path: path.read_text() for path in sorted((CRATES / crate / "src").rglob("*.rt")) if "tests" not in path.stem}
    kept_in = {name for text in texts.values() for name in TRAIT.findall(text)} - names
    for path, text in texts.items():
        out = []
        for match in ITEM.finditer(text):
            if match.group(1) in names or path.stem in modules:
                out.append(without_bodies(block_at(text, match.start())))
        for match in IMPL.finditer(text):
            named = set(re.findall(r"\w+", match.group(0)))
            if named & names and not named & kept_in:
                out.append(public_methods(block_at(text, match.start())))
        yield text, "\n".join(out)


def imported(text):
    """Under which name a file cites which specs file."""
    names = {}
    for crate, stem, group, alias in IMPORT.findall(text):
        if alias:
            names.setdefault(alias, set()).add((crate, stem))
        for name in group.split(","):
            name = name.split(" as ")[-1].strip()
            if name:
                names.setdefault(name, set()).add((crate, stem))
    return names


def rested_on(specs):
    """The specs files on which public clauses rest."""
    found = set()
    for crate in sorted(path.name for path in CRATES.iterdir()):
        for text, public in public_text(crate):
            words = set(re.findall(r"[\w'≡◌-]+", public)) | set(re.findall(r"\w+", public))
            for name, files in imported(text).items():
                if name in words:
                    found |= files & specs.keys()
    todo = list(found)
    while todo:
        for cited in CITED.findall(specs[todo.pop()]):
            if cited in specs and cited not in found:
                found.add(cited)
                todo.append(cited)
    return found


def sections(document):
    for part in re.split(r"^## ", document, flags=re.M)[1:]:
        title, _, body = part.partition("\n")
        inside = re.search(r"\(([^)]*)\)\s*$", title)
        crates = [crate.strip() for crate in inside.group(1).split(",")] if inside else []
        yield title, crates, re.findall(r"`([A-Z]\w*)\.antt`", body)


def faults_of(specs, needed):
    """What the document lacks, and what it names that isn't there."""
    named, faults = set(), []
    for title, crates, files in sections((TOP / "docs" / "DEFINITIONS.md").read_text()):
        for stem in set(files):
            there = [crate for crate in crates if (crate, stem) in specs]
            if not there:
                faults.append(f"{title}: there is no {stem}.antt")
            # A section of several crates with a file of one name names it once for each.
            if files.count(stem) >= len(there):
                named.update((crate, stem) for crate in there)
    for crate, stem in sorted(needed - named):
        faults.append(f"{crate}/specs/{stem}.antt isn't named")
    return [f"docs/DEFINITIONS.md: {fault}" for fault in faults]


def faults():
    specs = specs_files()
    return faults_of(specs, rested_on(specs))


def main():
    specs = specs_files()
    needed = rested_on(specs)
    found = faults_of(specs, needed)
    for fault in found:
        print(fault)
    print(f"{len(needed)} specs files carry public clauses, of {len(specs)}; {len(found)} faults")
    return 1 if found else 0


if __name__ == "__main__":
    sys.exit(main())
