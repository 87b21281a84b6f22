#!/usr/bin/env python3
"""Refuses the program's calls of the system one after another, and tells where it answers badly.

Each of a few runs, of every command but gen, is made again and again, and each time one call is refused: an
allocation, an open or a read of a file, or a write, after 0 or 3 bytes of it. Where an allocation is refused the run
has to end for want of memory with nothing put, or with its whole text (a hint or a thread that finds none is done
without). Where a file's call is, the run names that file, and where a write is, the output has the lines before it and
so many bytes of its own.

Usage: tools/refuse.py [--only KIND] [--program PROGRAM]
"""

import argparse
import os
import struct
import subprocess
import sys
import tempfile
import time
from collections import Counter, namedtuple
from multiprocessing.pool import ThreadPool

TOP = os.path.dirname(os.path.dirname(os.path.abspath(__file__)))
ONE_TABLE = ('{"version":1,"segments":4,"tables":[{"name":"t","rows":%s,"distribution":%s,'
             '"columns":[{"name":"a","ndv":%s},{"name":"b","ndv":10}]}]}')
JOIN = "SELECT T1.a FROM T1, T2 WHERE T1.a = T2.b ORDER BY T1.a"
with open(os.path.join(TOP, "examples", "two_tables.json")) as file:
    TWO_TABLES = file.read()

with open(os.path.join(TOP, "examples", "join.dump")) as file:
    DUMP = file.read()
THREE = "SELECT x.a FROM T1 x, T1 y, T2 z WHERE x.a = y.a AND y.a = z.b"
SORTED = "SELECT a FROM t ORDER BY a"
THOUSAND = ONE_TABLE % (1000, '"random"', 1000)
PLAN = ("cost 5253\noutput t.a\nGatherMerge(t.a) rows=1000 cost=3001\n  Sort(t.a) rows=1000 cost=2001\n"
        "    Scan(t) rows=1000 cost=251\n")
SECTIONS = ["--memo", "--trace", "--by-worker"]

# the name of a run, its files in the order in which they are read, each with its text, and its command with the words
# behind the files
Run = namedtuple("Run", "name files command words")
RUNS = [
    Run("the running example", [("c.json", TWO_TABLES), ("q.sql", JOIN)], "plan", []),
    Run("the running example by 8 workers", [("c.json", TWO_TABLES), ("q.sql", JOIN)], "plan", ["--workers", "8"]),
    Run("three tables with all sections", [("c.json", TWO_TABLES), ("q.sql", THREE)], "plan", SECTIONS),
    Run("one table in an order", [("c.json", THOUSAND), ("q.sql", SORTED)], "plan", []),
    Run("a table of no rows with all sections",
        [("c.json", ONE_TABLE % (0, '"random"', 1000)), ("q.sql", "SELECT a FROM t")], "plan", SECTIONS),
    Run("groups by the column of the hash",
        [("c.json", ONE_TABLE % (1000, '["a"]', 100)), ("q.sql", "SELECT a, COUNT(*) FROM t GROUP BY a")], "plan", []),
    Run("two lines of a list by 2 workers", [("c.json", TWO_TABLES), ("list.sql", f"{JOIN}\nSELECT T1.b FROM T1\n")],
        "batch", ["--workers", "2"]),
    Run("two stages", [("c.json", TWO_TABLES), ("q.sql", JOIN)], "stages", ["JoinCommute,all"]),
    Run("the check of a plan", [("c.json", THOUSAND), ("q.sql", SORTED), ("plan.txt", PLAN)], "check", []),
    Run("a dump", [("c.json", TWO_TABLES), ("q.sql", JOIN)], "dump", []),
    Run("the replay of a dump", [("query.dump", DUMP)], "replay", []),
]
PLANNED, READ_FAULT, WRITE_FAULT, MEMORY = 0, 6, 7, 8
SECONDS = 60
# how many bytes the program holds back
HELD = 8192


class Refuser:
    """The program with one call refused, of a run whose files stand in the folder."""

    def __init__(self, library, program, folder, run):
        self.library, self.program, self.folder = library, program, folder
        self.files = [name for name, _ in run.files]
        self.words = [run.command, *self.files, *run.words]

    def run(self, kind, number, kept=0):
        """The status, the output, and how many calls of the kind there were; no call has the number 0."""
        with tempfile.NamedTemporaryFile() as counted:
            counted.write(struct.pack("l", 0))
            counted.flush()
            asked = {"LD_PRELOAD": self.library, "REFUSE": f"{kind} {number} {kept}", "REFUSE_CALLS": counted.name}
            done = subprocess.run([self.program, *self.words], cwd=self.folder, env=asked, stdin=subprocess.DEVNULL,
                                  stdout=subprocess.PIPE, stderr=subprocess.PIPE, timeout=SECONDS)
            counted.seek(0)
            return done.returncode, done.stdout + done.stderr, struct.unpack("l", counted.read())[0]

    def refused(self, pool, kind, count, kept=0):
        """The answers where the calls from 1 to count are refused in turn."""
        return pool.map(lambda number: self.run(kind, number, kept)[:2], range(1, count + 1))


def faults_of_memory(refuser, pool, text):
    """Allocations are refused up to the greatest number that there were in ten runs: threads take some by turns."""
    count = max(refuser.run("memory", 0)[2] for _ in range(10))
    answers = refuser.refused(pool, "memory", count)
    wanted = [(MEMORY, b""), (PLANNED, text)]
    faults = [f"allocation {at}: status {answer[0]}, {answer[1]!r}" for at, answer in enumerate(answers, 1)
              if answer not in wanted]
    return Counter(status for status, _ in answers), faults


def faults_of_reads(refuser, pool, text):
    """The calls of each file come before those of the next, and there are some of each."""
    answers = refuser.refused(pool, "read", refuser.run("read", 0)[2])
    places = [place for status, said in answers for place, name in enumerate(refuser.files)
              if (status, said) == (READ_FAULT, b"read fault: %s\n" % name.encode())]
    faults = [f"read {at}: status {answer[0]}, {answer[1]!r}" for at, answer in enumerate(answers, 1)
              if answer[0] != READ_FAULT]
    if len(places) < len(answers) or places != sorted(places) or len(set(places)) < len(refuser.files):
        faults.append(f"the reads that failed are told as those of {[refuser.files[place] for place in places]}")
    return Counter(status for status, _ in answers), faults


def writes_of(text):
    """The lines of a text, as they are written together."""
    writes = [b""]
    for line in text.splitlines(keepends=True):
        if len(writes[-1]) + len(line) > HELD:
            writes.append(b"")
        writes[-1] += line
    return writes


def faults_of_writes(refuser, pool, text):
    """Lines are written together, as many as are held back."""
    seen, faults, written = Counter(), [], writes_of(text)
    for kept in (0, 3):
        answers = refuser.refused(pool, "write", refuser.run("write", 0)[2], kept)
        wanted = [(WRITE_FAULT, b"".join(written[:at]) + written[at][:kept]) for at in range(len(written))]
        seen += Counter(status for status, _ in answers)
        if answers != wanted:
            faults.append(f"writes that fail after {kept} bytes: {answers}")
    return seen, faults


KINDS = {"memory": faults_of_memory, "read": faults_of_reads, "write": faults_of_writes}


def main():
    options = argparse.ArgumentParser(description="refuses the program's calls of the system one after another")
    options.add_argument("--only", choices=KINDS)
    options.add_argument("--program", default=os.path.join(TOP, "crates", "orca", "out", "orca"))
    asked = options.parse_args()
    failed = 0
    with tempfile.TemporaryDirectory() as folder, ThreadPool(os.cpu_count()) as pool:
        library = os.path.join(folder, "refuse.so")
        source = os.path.join(TOP, "tools", "refuse.c")
        subprocess.run(["cc", "-O2", "-shared", "-fPIC", "-o", library, source], check=True)
        for run in RUNS:
            for file, content in run.files:
                with open(os.path.join(folder, file), "w") as into:
                    into.write(content)
            refuser = Refuser(library, os.path.abspath(asked.program), folder, run)
            status, text, _ = refuser.run("memory", 0)
            if status != PLANNED:
                sys.exit(f"{run.name}: status {status} without a refusal: {text!r}")
            for kind in [asked.only] if asked.only else KINDS:
                began = time.time()
                seen, faults = KINDS[kind](refuser, pool, text)
                failed += len(faults)
                statuses = ", ".join(f"status {status}: {count}" for status, count in sorted(seen.items()))
                print(f"{run.name}: {kind} refused {sum(seen.values())} times in {time.time() - began:.0f} s; {statuses}; "
                      f"{len(faults)} answered badly", flush=True)
                for fault in faults:
                    print(f"  {fault}", flush=True)
    sys.exit(1 if failed else 0)


if __name__ == "__main__":
    main()
