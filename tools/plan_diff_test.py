#!/usr/bin/env python3
"""Tests tools/plan_diff.py: what it prints for two batches, and with which status it ends. The batches of docs/TOOLS.md
are those of the plain program.

Usage: tools/plan_diff_test.py
"""

import os
import subprocess
import sys
import tempfile

from orca_program import TOP, bytes_of
from plain_commands import answer

TOOL = os.path.join(TOP, "tools", "plan_diff.py")
STAR_SCHEMA = os.path.join(TOP, "examples", "star_schema")

SORTED = """cost 5253
output t.a
GatherMerge(t.a) rows=1000 cost=3001
  Sort(t.a) rows=1000 cost=2001
    Scan(t) rows=1000 cost=251
"""
# the same steps over half the rows, and other steps
HALVED = """cost 2628
output t.a
GatherMerge(t.a) rows=500 cost=1501
  Sort(t.a) rows=500 cost=1001
    Scan(t) rows=500 cost=126
"""
GATHERED = """cost 9000
output t.a
Sort(t.a) rows=1000 cost=5749
  Gather rows=1000 cost=3000
    Scan(t) rows=1000 cost=251
"""
MEMO = "memo groups=1 members=2\n"
OTHER_MEMO = "memo groups=1 members=3\n"
UNKNOWN = "query refused: unknown column at 7\n"
EMPTY = "query refused: grammar at 0\n"
FULL = "too many entries: capacity 64\n"


def batch(*endings):
    head = f"batch queries={len(endings)}\n"
    return head + "".join(f"query {number} status {status}\n{text}" for number, (status, text) in enumerate(endings))


BEFORE = batch((0, SORTED), (0, SORTED), (0, SORTED), (3, UNKNOWN), (0, SORTED + MEMO), (3, UNKNOWN), (0, SORTED))
AFTER = batch((0, HALVED), (0, SORTED), (5, FULL), (3, EMPTY), (0, SORTED + OTHER_MEMO), (0, SORTED), (0, GATHERED))
ROWS = """query  changed  before    after     times
2      status   5253      status 5  -
6      plan     5253      9000      1.713
0      cost     5253      2628      0.500
5      status   status 3  5253      -
3      status   status 3  status 3  -
queries 7: same 2, plan 1, cost 1, status 3
"""
LISTED = """query  changed  before  after  times
0      plan     5253    9000   1.713  SELECT a FROM t ORDER BY a
queries 1: same 0, plan 1, cost 0, status 0
"""

# name, before, after, list, status, standard output
CASES = [
    ("the worst comes first", BEFORE, AFTER, None, 1, ROWS),
    ("nothing changed", BEFORE, BEFORE, None, 0, "queries 7: same 7, plan 0, cost 0, status 0\n"),
    ("no queries", batch(), batch(), None, 0, "queries 0: same 0, plan 0, cost 0, status 0\n"),
    ("the query's text stands behind its row", batch((0, SORTED)), batch((0, GATHERED)),
     "SELECT a FROM t ORDER BY a\n", 1, LISTED),
    ("another number of queries", BEFORE, batch((0, SORTED)), None, 2, ""),
    ("another number of lines", batch((0, SORTED)), batch((0, SORTED)), "a\nb\n", 2, ""),
    ("no batch", SORTED, BEFORE, None, 2, ""),
    ("a query is missing", batch((0, SORTED)).replace("=1", "=2", 1), BEFORE, None, 2, ""),
    ("a number is left out", batch((0, SORTED), (0, SORTED)).replace("query 1", "query 2"), BEFORE, None, 2, ""),
]


def star_schema_batch(catalog):
    """What is printed of the queries of the star schema over one of its catalogues."""
    names = [os.path.join(STAR_SCHEMA, name) for name in (catalog, "all_queries.txt")]
    return answer(["batch", *names], {name: bytes_of(name) for name in names})[1]


def shown_rows():
    """The rows that docs/TOOLS.md shows."""
    page = bytes_of(os.path.join(TOP, "docs", "TOOLS.md")).decode()
    rows = page.partition("the worst first:\n\n```text\n")[2]
    return rows.partition("```")[0]


def written(folder, name, text):
    path = os.path.join(folder, name)
    with open(path, "w", encoding="utf-8") as file:
        file.write(text)
    return path


def passes(name, before, after, listed, status, output):
    with tempfile.TemporaryDirectory() as folder:
        words = [written(folder, "before", before), written(folder, "after", after)]
        if listed is not None:
            words += ["--list", written(folder, "list", listed)]
        done = subprocess.run([sys.executable, TOOL, *words], capture_output=True, text=True, check=False, timeout=60)
    said = done.stderr != ""
    if done.returncode == status and done.stdout == output and said == (status == 2):
        return True
    print(f"{name}: status {done.returncode}, printed\n{done.stdout}{done.stderr}")
    return False


def main():
    cases = CASES + [("docs/TOOLS.md", star_schema_batch("catalog.json"), star_schema_batch("catalog_version_2.json"),
                      None, 1, shown_rows())]
    passed = sum(passes(*case) for case in cases)
    print(f"{passed} passed, {len(cases) - passed} failed")
    sys.exit(0 if passed == len(cases) else 1)


if __name__ == "__main__":
    main()
