#!/usr/bin/env python3
"""Compares the plans that the program prints with those of a plain program that is written on its own.

It makes random small catalogues and queries, works out the text of the least plan of each (plain_plans.py), and with
--memo that of its memo, and tells where the program prints another one. Before that it checks the plain program
against plans that were worked out by hand (known_plans.py), and with --trees against a listing of all plans. With
--alone that is all: the program isn't run.

With --folder it takes the queries of a folder, each *.sql over its catalog.json or the catalogue that --catalog names,
with either root, in place of random ones.

The program is run with each number of workers that --workers names, and has to print the same with all of them, within
two minutes.

Usage: tools/compare.py [--cases N] [--seed N] [--tables N] [--parts PART,PART] [--versions N,N] [--workers N,N]
       [--memo] [--trees NODES] [--alone]
       tools/compare.py --folder FOLDER [--catalog NAME] [--workers N,N] [--memo] [--alone]
"""

import argparse
import glob
import os
import random
import subprocess
import sys
import tempfile

from known_plans import KNOWN, KNOWN_COUNTS, KNOWN_ROWS
from plain_plans import ONE, RULES, SPREAD, Query, least_by_listing, least_by_requests, memo_text, text_of
from read_query import read_query

COMPARISONS = ["=", "=", "=", "<", "<=", ">", ">=", "<>"]
LITERALS = [-5, -4, -3, 0, 2, 3, 4, 5, 5, 6, 7, 9, 12, "x", "it's"]
FEW_ROWS, MANY_ROWS = [0, 1, 5, 10, 100, 1000], [1000, 1000, 20000, 500000, 10**12]
PARTS = ["aliases", "indexes", "groupings", "options"]
SECONDS = 120


# ---- random queries


def random_histogram(pick):
    """A histogram whose buckets begin and end near the literals of conditions."""
    low = upto = pick.choice([-4, 0, 3, 5])
    buckets = []
    for _ in range(pick.randint(1, 4)):
        upto += pick.choice([1, 1, 2, 5]) if buckets else pick.choice([0, 1, 4])
        buckets.append((upto, pick.choice([0, 1, 2, 7, 10**12])))
    return low, buckets


def random_table(pick, t, rows, version):
    columns = [(f"c{k}", pick.choice([0, 1, 3, 10, 100, 1000])) for k in range(pick.randint(1, 3))]
    some_names = lambda: pick.sample([name for name, _ in columns], pick.randint(1, min(2, len(columns))))
    replicated = version == 2 and pick.random() < 0.4
    counted = [name for name, _ in columns if version == 2 and pick.random() < 0.6]
    return {
        "name": f"t{t}",
        "rows": pick.choice(rows),
        "columns": columns,
        "hashed": some_names() if not replicated and pick.random() < 0.5 else None,
        "replicated": replicated,
        "histograms": {name: random_histogram(pick) for name in counted},
        "indexes": [some_names() for _ in range(pick.choice([0, 0, 1, 2]))],
    }


def random_grouping(pick, column):
    """The output and the GROUP BY columns of a grouped query."""
    group_by = [column() for _ in range(pick.choice([0, 1, 1, 2, 2, 3]))]
    output = [(what, None) for what in group_by if pick.random() < 0.7]
    for k in range(pick.randint(0 if output else 1, 2)):
        function = pick.choice(["COUNT", "SUM", "MIN", "MAX"])
        star = function == "COUNT" and pick.random() < 0.5
        output.append(((function, None if star else column()), f"s{k}" if pick.random() < 0.6 else None))
    return output, group_by


def random_query(pick, most_tables, parts, versions):
    """A query over at most so many tables, over a catalogue of one of the versions; parts says what it may have beside
    joins and an order."""
    tables, version = random_tables(pick, most_tables, parts, versions)
    return random_query_over(pick, tables, parts, version)


def random_tables(pick, most_tables, parts, versions):
    """At most so many tables of a catalogue, and its version."""
    rows = pick.choice([FEW_ROWS, MANY_ROWS, FEW_ROWS + MANY_ROWS])
    version = pick.choice(versions)
    tables = [random_table(pick, t, rows, version) for t in range(pick.randint(1, most_tables))]
    if "indexes" not in parts:
        for table in tables:
            table["indexes"] = []
    return tables, version


def random_query_over(pick, tables, parts, version):
    """A query over all these tables, or over one of them twice."""
    if "aliases" in parts and len(tables) > 1 and pick.random() < 0.15:
        tables = tables[:-1] + [{**tables[0], "name": "again", "of": tables[0]["name"]}]

    def column(first=0, behind=len(tables)):
        t = pick.randrange(first, behind)
        return t, pick.choice(tables[t]["columns"])[0]

    preds = [(column(t, t + 1), "=", column(0, t)) for t in range(1, len(tables)) if pick.random() < 0.7]
    for _ in range(pick.randint(0, 3)):
        literal = pick.random() < (0.5 if len(tables) == 1 else 0.3)
        preds.append((column(), pick.choice(COMPARISONS), pick.choice(LITERALS) if literal else column()))
    output, group_by = [(column(), None)], []
    if "groupings" in parts and pick.random() < 0.5:
        output, group_by = random_grouping(pick, column)
    keys = [name for _, name in output if name] + group_by
    order = []
    if pick.random() < 0.6 and (keys or not isinstance(output[0][0][0], str)):
        key = (lambda: pick.choice(keys)) if keys else column
        order = [(key(), pick.random() < 0.3) for _ in range(pick.randint(1, 2))]
    root, off = ONE, []
    if "options" in parts:
        root = SPREAD if pick.random() < 0.2 else ONE
        off = pick.sample(RULES[1:], pick.choice([1, 1, 2, 4])) if pick.random() < 0.35 else []
    return Query(pick.choice([1, 4, 4, 7]), tables, preds, output, order, group_by, root, off, version)


# ---- cases: each with a name, the query, and the files of its catalogue and its text


def random_cases(asked, folder):
    catalog, text = os.path.join(folder, "catalog.json"), os.path.join(folder, "query.sql")
    versions = [int(version) for version in asked.versions.split(",")]
    for case in range(asked.seed, asked.seed + asked.cases):
        query = random_query(random.Random(case), asked.tables, asked.parts.split(","), versions)
        with open(catalog, "w") as file:
            file.write(query.catalog())
        with open(text, "w") as file:
            file.write(query.sql())
        yield f"case {case}", query, catalog, text


def cases_of_folder(folder, catalog):
    """Each query of the folder with either root, over the catalogue of this name in it."""
    catalog = os.path.join(folder, catalog)
    with open(catalog) as file:
        tables = file.read()
    for text in sorted(glob.glob(os.path.join(folder, "*.sql"))):
        with open(text) as file:
            select = file.read()
        for root in (ONE, SPREAD):
            yield text, read_query(tables, select, root), catalog, text


# ---- the program


def printed(program, catalog, text, query, workers, memo):
    """What the program prints, or that it doesn't end in time."""
    words = ["plan", catalog, text, *query.words(), "--workers", workers] + (["--memo"] if memo else [])
    try:
        return subprocess.run([program, *words], capture_output=True, text=True, timeout=SECONDS).stdout
    except subprocess.TimeoutExpired:
        return f"no end in {SECONDS} seconds\n"


def check_known():
    for query, text in KNOWN:
        found = text_of(query, least_by_requests(query))
        if found != text:
            sys.exit(f"the plain program is wrong\n{query.sql()}\nknown\n{text}found\n{found}")
    for query, key, rows in KNOWN_ROWS:
        if query.rows(key) != rows:
            sys.exit(f"the plain program is wrong\n{query.sql()}\nknown {rows} rows, found {query.rows(key)}")
    for query, groups, members in KNOWN_COUNTS:
        found = len(query.members), sum(map(len, query.members.values()))
        if found != (groups, members):
            sys.exit(f"the plain program is wrong\n{query.sql()}\nknown {groups}, {members}, found {found}")


def check_by_listing(query, least, most):
    """How many plans were listed, none where the least one has more nodes than that."""
    if least is not None and len(least.code) > most:
        return 0
    again, count = least_by_listing(query, most)
    if text_of(query, again) != text_of(query, least) or (again and again.code) != (least and least.code):
        sys.exit(f"the least of all plans is another one\n{told(query)}\n{text_of(query, again)}")
    return count


def told(query):
    return "\n".join([query.catalog(), query.sql(), *query.words()])


def main():
    top = os.path.dirname(os.path.dirname(os.path.abspath(__file__)))
    options = argparse.ArgumentParser(description="compares printed plans with those of a plain program")
    options.add_argument("--cases", type=int, default=200)
    options.add_argument("--seed", type=int, default=1)
    options.add_argument("--tables", type=int, default=4, help="the most tables of a query")
    options.add_argument("--parts", default=",".join(PARTS), help="what queries may have, of " + ", ".join(PARTS))
    options.add_argument("--versions", default="1", help="the versions of catalogues, of 1 and 2")
    options.add_argument("--workers", default="1,4", help="with how many workers the program is run")
    options.add_argument("--memo", action="store_true", help="compare the memos, too")
    options.add_argument("--trees", type=int, default=0, metavar="NODES", help="list plans of at most so many nodes")
    options.add_argument("--alone", action="store_true", help="only check the plain program")
    options.add_argument("--folder", help="take the queries of this folder")
    options.add_argument("--catalog", default="catalog.json", help="the folder's catalogue, catalog.json if not given")
    options.add_argument("--program", default=os.path.join(top, "crates", "orca", "out", "orca"))
    asked = options.parse_args()
    check_known()
    count = differ = without = listings = listed = 0
    with tempfile.TemporaryDirectory() as folder:
        cases = cases_of_folder(asked.folder, asked.catalog) if asked.folder else random_cases(asked, folder)
        for name, query, catalog, text in cases:
            least = least_by_requests(query)
            count += 1
            without += least is None
            if asked.trees:
                plans = check_by_listing(query, least, asked.trees)
                listings += plans > 0
                listed += plans
            if asked.alone:
                continue
            wanted = text_of(query, least) + (memo_text(query) if asked.memo else "")
            for workers in asked.workers.split(","):
                got = printed(asked.program, catalog, text, query, workers, asked.memo)
                if wanted != got:
                    differ += 1
                    print(f"{name}, {workers} workers\n{told(query)}\nexpected\n{wanted}printed\n{got}")
    print(f"{count} cases, {without} of them without a plan, {differ} differ")
    if asked.trees:
        print(f"{listings} of them by listing, with {listed} plans")
    sys.exit(1 if differ or not count else 0)


if __name__ == "__main__":
    main()
