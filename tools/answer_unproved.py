#!/usr/bin/env python3
"""Answers as the program would, by a run of its sources that nothing has proved (`rt try` of crates/orca).

Usage: tools/answer_unproved.py WORD...

Standard output and the status are those of the program. `rt try` compiles the program from nothing, which takes a
minute or two, runs it in a folder of its own with copies of the files that the words name, and keeps nothing. Where it
gives no answer, as past 1 MiB of output or past 120 seconds, this says why and ends with the status 125 and no output.
"""

import os
import stat
import subprocess
import sys
import traceback

TOP = os.path.dirname(os.path.dirname(os.path.abspath(__file__)))
CRATE = os.path.join(TOP, "crates", "orca")
SECONDS = 120
WRITE_FAULT, NO_ANSWER = 7, 125
# Names that `rt try` has for itself in the folder of the run.
TAKEN = ("program", "stdin", "stdout", "stderr")


class NoAnswer(Exception):
    """Why `rt try` can't answer."""


def keeps_its_name(word):
    """Whether a file can stand in the folder of the run under this very word."""
    return not (word.startswith("/") or "=" in word or ".." in word.split("/")
                or os.path.normpath(word).split("/")[0] in TAKEN)


def copy_of(number, word):
    """The word to pass, and the file whose copy stands under it, or None where the word names no file."""
    if word.startswith("-") or not os.path.exists(word) or os.path.isdir(word):
        if os.path.isfile(os.path.join(CRATE, word)):
            # (`rt try` would take that file)
            raise NoAnswer(f"{word} names a file of crates/orca alone")
        return word, None
    if not stat.S_ISREG(os.stat(word).st_mode) or not os.access(word, os.R_OK):
        raise NoAnswer(f"{word} is no plain file that can be read twice")
    return word if keeps_its_name(word) else f"orca-word-{number}", os.path.realpath(word)


def try_words(words):
    """The words of the call of `rt try`."""
    passed, data = [], []
    for number, word in enumerate(words):
        name, file = copy_of(number, word)
        passed.append(name)
        data += ["--data", f"{name}={file}"] if file else []
    return ["rt", "try", "--seconds", str(SECONDS), *data, "--", *passed]


def why_not(said):
    """The line in which `rt try` says why there is no answer, or its last one."""
    lines = said.strip().splitlines() or ["it said nothing"]
    return next((line for line in lines if line.startswith("checked: ")), lines[-1])


def answer_to(words):
    """The bytes of standard output, and the status."""
    run = subprocess.run(try_words(words), cwd=CRATE, stdin=subprocess.DEVNULL, capture_output=True)
    said = run.stderr.decode(errors="replace")
    last = said.strip().rpartition("\n")[2].split()
    if "run=ended" not in last or f"status={run.returncode}" not in last:
        raise NoAnswer(why_not(said))
    return run.stdout, run.returncode


def put(answer):
    """Whether standard output took the answer."""
    try:
        sys.stdout.buffer.write(answer)
        sys.stdout.buffer.flush()
        return True
    except OSError:
        # (so that nothing is written once more at the end)
        os.dup2(os.open(os.devnull, os.O_WRONLY), 1)
        return False


def main(words):
    print("orca: no proved program stands: compiling it without proofs first, which takes a minute or two",
          file=sys.stderr, flush=True)
    try:
        answer, status = answer_to(words)
    except NoAnswer as why:
        print(f"orca: no answer before the proof: {why}", file=sys.stderr, flush=True)
        return NO_ANSWER
    print("orca: this answer comes from an unproved build", file=sys.stderr, flush=True)
    return status if put(answer) else WRITE_FAULT


if __name__ == "__main__":
    try:
        sys.exit(main(sys.argv[1:]))
    except Exception:
        # (Python's own status for it is one of the program's)
        traceback.print_exc()
        sys.exit(NO_ANSWER)
