#!/usr/bin/env python3
"""Counts the atomic exchanges of a run by one worker, for each function that makes some.

It runs the program under callgrind and adds up how often each locked instruction of its code was reached. Loads are
plain instructions and aren't counted; nor is what a function does that the compiler put into another one told apart.

Usage: bench/atomic_steps.py [SHAPE [TABLES]]     chain 8; the query is that of `orca gen 1 TABLES SHAPE`
"""

import os
import re
import subprocess
import sys
import tempfile
from bisect import bisect_right
from collections import Counter

TOP = os.path.dirname(os.path.dirname(os.path.abspath(__file__)))
PROGRAM = os.environ.get("ORCA", os.path.join(TOP, "crates", "orca", "out", "orca"))


def lines_of(*words):
    return subprocess.run(words, capture_output=True, check=True, text=True).stdout.splitlines()


def locked_instructions():
    """The addresses of the program's instructions that exchange a word in one step."""
    found = re.compile(r"\s*([0-9a-f]+):\s+(?:lock .*|xchg\s+%\w+,.*\(.*)")
    return {int(it[1], 16) for it in map(found.match, lines_of("objdump", "-d", "--no-show-raw-insn", PROGRAM)) if it}


def functions():
    """The functions' first addresses, ascending, and their names."""
    parts = (line.split(maxsplit=2) for line in lines_of("nm", PROGRAM))
    known = sorted((int(it[0], 16), it[2]) for it in parts if len(it) == 3 and it[1] in "tT")
    return [it for it, _ in known], [re.sub(r"::<.*", "", it) for _, it in known]


def reached(words):
    """How often each instruction was reached in a run with these words, and what the run printed."""
    with tempfile.NamedTemporaryFile() as counts:
        printed = lines_of("valgrind", "--quiet", "--tool=callgrind", "--dump-instr=yes", "--compress-pos=no",
                           "--compress-strings=no", f"--callgrind-out-file={counts.name}", PROGRAM, *words)
        times = Counter()
        for line in counts.read().decode().splitlines():
            if it := re.match(r"0x([0-9a-f]+) \S+ (\d+)$", line):
                times[int(it[1], 16)] += int(it[2])
    return times, printed


def main():
    shape, tables = (sys.argv[1:] + ["chain", "8"][len(sys.argv) - 1:])[:2]
    times, printed = reached(["gen", "1", tables, shape])
    goals = int(next(it for line in printed if (it := re.match(r"trace goals=(\d+)", line)))[1])
    starts, names = functions()
    by_function = Counter()
    for at in locked_instructions():
        by_function[names[bisect_right(starts, at) - 1]] += times[at]
    print(f"{shape} of {tables} tables: {goals} goals, {sum(by_function.values()) / goals:.1f} exchanges for each")
    for name, count in by_function.most_common():
        if count:
            print(f"{count:10} {name}")


if __name__ == "__main__":
    main()
