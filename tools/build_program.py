#!/usr/bin/env python3
"""Proves a program and all crates that it stands on, and builds it.

Usage: tools/build_program.py CRATE

It proves a copy of these crates by `rt ci`, without must-fail edits and without crates of tests, so an edit meanwhile
doesn't reach it. What `rt ci` proved of the same files before on this machine, in the repository too, isn't proved again.

The program goes to crates/CRATE/out/CRATE. Beside it goes CRATE.sources: the names of all files and folders of code and
definitions that it was made from, each ended by a zero byte. The time of that file is the moment before they were looked
for. Proofs aren't among them: what was proved of the same code and definitions stays proved.

It prints a line for each crate that is proved. Where the build fails it prints all that `rt ci` said, and ends with the
status 1.
"""

import os
import re
import shutil
import subprocess
import sys
import tempfile

TOP = os.path.dirname(os.path.dirname(os.path.abspath(__file__)))
CODE_AND_DEFINITIONS = ["src", "specs"]
NOT_COPIED = shutil.ignore_patterns("out", "must-fail")
PROVED = re.compile(r"rt: (\w+) (?:proved$|is kept:)")


def lines_by_crate():
    """The line of crates.txt of each crate, and the names of the libraries in it."""
    lines, libraries = {}, {}
    with open(os.path.join(TOP, "crates.txt")) as file:
        for line in file:
            head, colon, names = line.partition("#")[0].partition(":")
            if colon:
                name = head.split()[0]
                lines[name], libraries[name] = line, names.split()
    return lines, libraries


def crates_of(program, libraries):
    """The program's crate, and the repository's crates that it stands on."""
    found, left = set(), [program]
    while left:
        crate = left.pop()
        if crate not in found:
            found.add(crate)
            left += [it for it in libraries[crate] if it in libraries]
    return sorted(found)


def sources_of(crate):
    """The files and folders of the crate's code and definitions, by their names below the repository."""
    for part in CODE_AND_DEFINITIONS:
        for at, _, names in os.walk(os.path.join(TOP, "crates", crate, part)):
            folder = os.path.relpath(at, TOP)
            yield folder
            yield from (os.path.join(folder, name) for name in names)


def write_list(crates, file):
    """Writes the names of the code and the definitions of these crates. The file's time is the moment before."""
    open(file, "w").close()
    before = os.stat(file).st_mtime_ns
    names = ["crates.txt", *(name for crate in crates for name in sources_of(crate))]
    with open(file, "w") as out:
        out.writelines(f"{name}\0" for name in names)
    os.utime(file, ns=(before, before))


def copy_to(copy, crates, lines):
    """Makes a repository of these crates."""
    with open(os.path.join(copy, "crates.txt"), "w") as file:
        file.writelines(line for crate, line in lines.items() if crate in crates)
    shutil.copy2(os.path.join(TOP, "HANDLES"), copy)
    for crate in crates:
        inside = os.path.join("crates", crate)
        shutil.copytree(os.path.join(TOP, inside), os.path.join(copy, inside), ignore=NOT_COPIED)


def prove(copy):
    """Whether `rt ci` passes there, and what it said. Tells of each crate as it is proved."""
    said = []
    with subprocess.Popen(["rt", "ci"], cwd=copy, stdin=subprocess.DEVNULL, stdout=subprocess.PIPE,
                          stderr=subprocess.STDOUT, text=True, errors="replace") as run:
        for line in run.stdout:
            said.append(line)
            proved = PROVED.match(line)
            if proved:
                print(f"proved {proved[1]}", flush=True)
    return run.returncode == 0, said


def build(program):
    """Whether the program was built."""
    lines, libraries = lines_by_crate()
    crates = crates_of(program, libraries)
    out = os.path.join(TOP, "crates", program, "out")
    os.makedirs(out, exist_ok=True)
    write_list(crates, os.path.join(out, f"{program}.sources"))
    with tempfile.TemporaryDirectory(prefix="orca-build-") as copy:
        copy_to(copy, crates, lines)
        passes, said = prove(copy)
        made = os.path.join(copy, "crates", program, "out", program)
        if passes and os.path.isfile(made):
            shutil.copy2(made, os.path.join(out, f"{program}.new"))
            os.replace(os.path.join(out, f"{program}.new"), os.path.join(out, program))
            return True
        sys.stdout.writelines(said)
        return False


if __name__ == "__main__":
    if len(sys.argv) != 2:
        sys.exit(__doc__)
    sys.exit(0 if build(sys.argv[1]) else 1)
