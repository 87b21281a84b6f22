#!/usr/bin/env python3
"""Runs the program on the longest texts of every kind that its readers know, and tells where it answers badly.

Queries have 65,536 bytes and catalogues 1,048,576, filled with white space, comments, strings, names, digits, lists and
nesting before, in and behind what is told: a plan, or each cause with its place. The same texts with one byte more are
too long. Dumps have 1,179,648 bytes, or the longest catalogue with the longest query. What is wanted was worked out by
hand.

Usage: tools/large_texts.py [--program PROGRAM]
"""

import argparse
import json
import os
import subprocess
import sys
import tempfile
import time

TOP = os.path.dirname(os.path.dirname(os.path.abspath(__file__)))
LONGEST_QUERY, LONGEST_CATALOG, LONGEST_DUMP = 65536, 1048576, 1179648
PLANNED, QUERY_REFUSED, CATALOG_REFUSED, DUMP_REFUSED = 0, 3, 4, 10
SECONDS = 60


def column(name, values):
    return {"name": name, "ndv": values}


def table(name, columns, distribution="random", **more):
    return {"name": name, "rows": 1000, "distribution": distribution, "columns": columns, **more}


def catalog(tables):
    return {"version": 1, "segments": 4, "tables": tables}


def compact(value):
    return json.dumps(value, separators=(",", ":"))


T = compact(catalog([table("t", [column("a", 1000), column("b", 10)])]))
TWO = compact(catalog([table("T1", [column("a", 1000)]), table("T2", [column("a", 1000), column("b", 500)])]))

SCANNED = "cost 2252\noutput t.a\nGather rows=1000 cost=2001\n  Scan(t) rows=1000 cost=251\n"
FILTERED = "cost 505\noutput t.a\nGather rows=1 cost=3\n  Filter(t) rows=1 cost=251\n    Scan(t) rows=1000 cost=251\n"


def filled(front, byte, back, longest=LONGEST_QUERY):
    return front + byte * (longest - len(front) - len(back)) + back


def repeated(front, piece, back="", longest=LONGEST_QUERY):
    """The piece as often as it fits, and then spaces."""
    count = (longest - len(front) - len(back)) // len(piece)
    return (front + piece * count + back).ljust(longest)


# ---- queries


# A query over a catalogue, and its cause with its place; with None the place is the end of the text.
SHORT = [
    (TWO, "SELECT T1.z FROM T1", "unknown column at", 7),
    (TWO, "SELECT a FROM T1, T2", "ambiguous column at", 7),
    (TWO, "SELECT T2.b FROM T2 GROUP BY T2.a", "not grouped at", 7),
    (TWO, "SELECT T1.a FROM T1, T2 AS T1", "name twice at", 27),
    (TWO, "SELECT x FROM T9", "unknown table at", 14),
    (T, "SELECT a FROM t,t,t,t,t,t,t,t,t,t,t", "too many tables at", 34),
    (T, "SELECT a FROM t WHERE a = 9223372036854775808", "token at", 26),
    (T, "SELECT a FROM t WHERE a = -9223372036854775808", "token at", 26),
    (T, "SELECT a FROM t WHERE a = 5x", "token at", 26),
    (T, "SELECT \xc3 FROM t", "not ASCII at", 7),
    (T, "SELECT a\0 FROM t", "token at", 8),
    (T, "SELECT a FROM t;;", "grammar at", 16),
    (T, "SELECT a FROM t WHERE 5 = a", "grammar at", 22),
    (T, "SELECT a b FROM t", "grammar at", 9),
    (T, "SELECT a FROM t ORDER BY a,a,a,a,a,a,a,a,a", "too many order keys at", 41),
    (T, "SELECT a FROM t GROUP BY a,a,a,a,a,a,a,a,a", "too many group columns at", 41),
    (T, "", "grammar at", None),
    (T, "SELECT a FROM t GROUP", "grammar at", None),
    (T, "SELECT COUNT(*) FROM t WHERE", "grammar at", None),
]
FRONTS = {"spaces": " ", "ends of lines": "\n", "short comments": "--\n", "tabs": "\t\r"}
BACKS = {"spaces": (" ", " "), "ends of lines": ("\n", "\n"), "a comment": (" --", "-")}


def padded():
    """Each short query behind and before much that is passed over, and a good one so."""
    for content, query, cause, place in [*SHORT, (T, "SELECT a FROM t", None, 0)]:
        room = LONGEST_QUERY - len(query)
        for name, piece in FRONTS.items():
            text = (piece * (room // len(piece))).ljust(room) + query
            yield f"{name} before {query!r}", content, text, cause, room + (len(query) if place is None else place)
        for name, (first, byte) in BACKS.items():
            text = filled(query + first, byte, "")
            yield f"{name} behind {query!r}", content, text, cause, LONGEST_QUERY if place is None else place


def long_tokens():
    """Queries of one long token, or of many short ones, and what is told of them: a plan or a cause."""
    where = "SELECT a FROM t WHERE a = "
    yield "a string", filled(where + "'", "x", "'"), FILTERED
    yield "a string of quotes", repeated(where + "'", "''", "'"), FILTERED
    yield "a string that isn't closed", filled(where + "'", "x", ""), "token at 26"
    yield "zeros before an integer", filled(where, "0", "1"), FILTERED
    yield "zeros before a negative integer", filled(where + "-", "0", "1"), FILTERED
    yield "an integer of many digits", filled(where, "9", ""), "token at 26"
    yield "an integer before a letter", filled(where, "1", "x"), "token at 26"
    yield "a name", filled("SELECT ", "a", " FROM t"), "unknown column at 7"
    yield "the name of a table", filled("SELECT a FROM ", "t", ""), "unknown table at 14"
    yield "a name behind a table's", filled("SELECT t.", "a", " FROM t"), "unknown column at 7"
    alias, name = filled("SELECT a FROM t ", "u", ""), filled("SELECT a AS ", "u", " FROM t")
    yield "an alias", alias, SCANNED.replace("t.a", alias[16:] + ".a").replace("(t)", f"({alias[16:]})")
    yield "an output name", name, SCANNED.replace("t.a", "t.a AS " + name[12:-7])
    yield "parentheses", filled("SELECT ", "(", ""), "grammar at 7"
    yield "functions", repeated("SELECT ", "SUM("), "grammar at 11"
    yield "names", repeated("", "a "), "grammar at 0"
    yield "semicolons", filled("SELECT a FROM t", ";", ""), "grammar at 16"
    yield "commas", filled("SELECT a", ",", ""), "grammar at 9"
    yield "minus signs", repeated(where, "- "), "token at 26"
    yield "bytes that begin nothing", filled("", "#", ""), "token at 0"
    yield "bytes that are not ASCII", filled("", "\xff", ""), "not ASCII at 0"
    yield "control bytes", filled("", "\x01", ""), "token at 0"
    last = LONGEST_QUERY - 1
    yield "a comment with a bad last byte", filled("SELECT a FROM t --", "x", "\x01"), f"token at {last}"
    yield "a comment that ends beyond ASCII", filled("SELECT a FROM t --", "x", "\x80"), f"not ASCII at {last}"
    yield "items", repeated("SELECT a", ",a", " FROM t"), "too many items at 127"
    yield "tables", repeated("SELECT a FROM t", ",t"), "too many tables at 34"
    yield "predicates", repeated("SELECT a FROM t WHERE a=1", " AND a=1"), "too many predicates at 342"
    yield "group columns", repeated("SELECT a FROM t GROUP BY a", ",a"), "too many group columns at 41"
    yield "order keys", repeated("SELECT a FROM t ORDER BY a", ",a"), "too many order keys at 41"


def queries():
    """The catalogue and the query, with the status and the text."""
    for name, content, query, cause, place in padded():
        wanted = (PLANNED, SCANNED) if cause is None else refused_query(f"{cause} {place}")
        yield f"query, {name}", content, query, wanted
    for name, query, told in long_tokens():
        yield f"query of {name}", T, query, (PLANNED, told) if told.startswith("cost") else refused_query(told)


def refused_query(cause):
    return QUERY_REFUSED, f"query refused: {cause}\n"


# ---- catalogues


def many_tables(tables, columns, change=None):
    """Tables t0, t1 and so on, each hashed on the first of its columns c0, c1 and so on; the last one may be changed."""
    made = catalog([table(f"t{t}", [column(f"c{c}", 100) for c in range(columns)], ["c0"]) for t in range(tables)])
    if change:
        change(made["tables"][-1])
    return compact(made).ljust(LONGEST_CATALOG)


def repeating(front, piece, back):
    return repeated(front, piece, back, LONGEST_CATALOG)


def filling(front, byte, back):
    return filled(front, byte, back, LONGEST_CATALOG)


# The catalogue of t with a further key in front: what stands before its value and behind it.
FRONT, BACK = '{"x":', "," + T[1:]
NAME = T.index('"t"') + 2
BEFORE, BEHIND = T.split("random")


def nested(levels):
    return "[" * levels + "]" * levels


def good_catalogs():
    scanned = SCANNED.replace("t.a", "t0.c0").replace("(t)", "(t0)")
    yield "a thousand tables", many_tables(1000, 30), scanned
    yield "25 tables of a thousand columns", many_tables(25, 1000), scanned
    yield "spaces behind", T.ljust(LONGEST_CATALOG), SCANNED
    yield "ends of lines in front", T.rjust(LONGEST_CATALOG, "\n"), SCANNED
    yield "tabs within", filling(T[:-1], "\t", T[-1]), SCANNED
    yield "a string that is passed over", filling(FRONT + '"', "y", '"' + BACK), SCANNED
    yield "a string of escapes", repeating(FRONT + '"', "\\u0041", '"' + BACK), SCANNED
    yield "a string of letters of two bytes", repeating(FRONT + '"', "\xc3\xa9", '"' + BACK), SCANNED
    yield "a fraction of many digits", filling(FRONT + "0.", "0", BACK), SCANNED
    yield "a list of numbers", repeating(FRONT + "[0", ",0", "]" + BACK), SCANNED
    yield "lists that nest up to level 127", repeating(FRONT + "[0", "," + nested(125), "]" + BACK), SCANNED
    yield "a version that is repeated, the last one good", repeating('{"version":3', ',"version":3', BACK), SCANNED
    yield "a long key", filling('{"', "k", '":0' + BACK), SCANNED


def refused_catalogs():
    for name, text in [
        ("brackets", "[" * LONGEST_CATALOG),
        ("braces", '{"":' * (LONGEST_CATALOG // 4)),
        ("a string that isn't closed", filling('"', "x", "")),
        ("digits", "1" * LONGEST_CATALOG),
        ("spaces", " " * LONGEST_CATALOG),
        ("a list that isn't closed", repeating("[0", ",0", "")),
        ("lists that nest up to level 128", repeating(FRONT + "[0", "," + nested(126), "]" + BACK)),
        ("a number out of range that is passed over", filling(FRONT, "1", BACK)),
        ("a bad last byte", T.ljust(LONGEST_CATALOG - 1) + "\xff"),
        ("a second value", T.ljust(LONGEST_CATALOG - 1) + "0"),
    ]:
        yield name, text, "not JSON"
    yield "a string", filling('"', "x", '"'), "shape at "
    yield "a list", repeating("[0", ",0", "]"), "shape at "
    yield "a version that is repeated, the last one bad", repeating(T[:-1], ',"version":3', "}"), "version 3"
    yield "a long name of a table", filling(T[:NAME], "t", T[NAME:]), "shape at /tables/0/name"
    yield "a long distribution", filling(BEFORE + "r", "r", BEHIND), "shape at /tables/0/distribution"
    yield "columns to the end", repeating(T[:-4], ',{"name":"c","ndv":1}', "]}]}"), "range at /tables/0/columns"
    yield "too many tables", many_tables(1001, 30), "range at /tables"
    yield "too many columns", many_tables(1, 1001), "range at /tables/0/columns"
    for name, change, told in [
        ("a table twice", {"name": "t0"}, "twice at /tables/999/name"),
        ("a column twice", {"columns": [column("c0", 1), column("c0", 1)]}, "twice at /tables/999/columns/1/name"),
        ("a column that isn't there", {"indexes": [["c0"], ["d"]]}, "unknown column at /tables/999/indexes/1/0"),
        ("a number too large", {"rows": 10**12 + 1}, "range at /tables/999/rows"),
        ("a number past its type", {"rows": 2**64}, "shape at /tables/999/rows"),
        ("too many indexes", {"indexes": [["c0"]] * 17}, "range at /tables/999/indexes"),
        ("too long an index", {"indexes": [["c0"] * 9]}, "range at /tables/999/indexes/0"),
    ]:
        yield f"{name} in the last table", many_tables(1000, 30, lambda made: made.update(change)), told


def catalogs():
    for name, text, told in good_catalogs():
        yield name, text, (PLANNED, told)
    for name, text, told in refused_catalogs():
        yield name, text, (CATALOG_REFUSED, f"catalog refused: {told}\n")


# ---- dumps


def dumped(catalog, query):
    return f"orca dump 1\ncapacity 131072\nroot one\noff\nprint\ncatalog {catalog}\nquery {query}\n"


def whole_catalog():
    """A catalogue of the greatest length whose text is the one that a dump has: each column of its table t counted."""
    histogram = {"low": 0, "buckets": [{"upto": upto, "rows": 10} for upto in range(64)]}
    columns = [column("a", 1000)] + [{**column(f"c{place}", 64), "histogram": histogram} for place in range(100, 819)]
    lacking = LONGEST_CATALOG - len(of_columns(columns))
    for counted in columns[1:]:
        more = min(lacking, 50)
        counted["name"] += "x" * more
        lacking -= more
    return of_columns(columns)


def of_columns(columns):
    return compact({"version": 2, "segments": 4, "tables": [table("t", columns)]})


def dumps():
    """The words, their files, and the status with the text."""
    catalog, query = T.ljust(LONGEST_CATALOG), "SELECT a FROM t".ljust(LONGEST_QUERY, "\n")
    for name, text, wanted in [
        ("the longest texts", dumped(catalog, query), (PLANNED, SCANNED)),
        ("a byte more of the query", dumped(catalog, query + " "), refused_query("too long")),
        ("a byte more of both", dumped(catalog + " ", query + " "), (CATALOG_REFUSED, "catalog refused: too long\n")),
        ("all of it a query", filled(dumped(T, "")[:-1], " ", "\n", LONGEST_DUMP), refused_query("too long")),
        ("a byte too many", filled(dumped(T, "")[:-1], " ", "\n", LONGEST_DUMP + 1), refused_dump("too long")),
        ("one line", "x" * LONGEST_DUMP, refused_dump("line 0")),
        ("ends of lines", "\n" * LONGEST_DUMP, refused_dump("line 0")),
        ("a capacity", filled("orca dump 1\ncapacity ", "0", "64\n", LONGEST_DUMP), refused_dump("line 1")),
        ("a catalogue that goes on", filled(dumped(T, "")[:-8], " ", "", LONGEST_DUMP), refused_dump("line 5")),
        ("a query that goes on", filled(dumped(T, "")[:-1], " ", "", LONGEST_DUMP), refused_dump("line 6")),
    ]:
        yield name, ["replay", "dump"], {"dump": text}, wanted
    catalog = whole_catalog()
    assert len(catalog) == LONGEST_CATALOG, len(catalog)
    text = dumped(catalog, query)
    yield "what is dumped", ["dump", "c.json", "q.sql"], {"c.json": catalog, "q.sql": query}, (PLANNED, text)
    for workers in ["1", "8"]:
        yield "what was dumped", ["replay", "dump", "--workers", workers], {"dump": text}, (PLANNED, SCANNED)


def refused_dump(cause):
    return DUMP_REFUSED, f"dump refused: {cause}\n"


# ---- the program


class Runner:
    def __init__(self, program, folder):
        self.program, self.folder = program, folder

    def run(self, words, files):
        for name, text in files.items():
            with open(os.path.join(self.folder, name), "wb") as file:
                file.write(text.encode("latin-1"))
        done = subprocess.run([self.program, *words], cwd=self.folder, stdout=subprocess.PIPE, stderr=subprocess.STDOUT,
                              timeout=SECONDS)
        return done.returncode, done.stdout.decode("latin-1")


def cases():
    for name, catalog, query, wanted in plans():
        yield name, ["plan", "c.json", "q.sql"], {"c.json": catalog, "q.sql": query}, wanted
    for name, words, files, wanted in dumps():
        yield f"dump, {name}", words, files, wanted


def plans():
    for name, catalog, query, wanted in queries():
        assert len(query) == LONGEST_QUERY, (name, len(query))
        yield name, catalog, query, wanted
        yield f"{name}, and a byte", catalog, query + " ", (QUERY_REFUSED, "query refused: too long\n")
    for name, catalog, wanted in catalogs():
        assert len(catalog) == LONGEST_CATALOG, (name, len(catalog))
        query = "SELECT t0.c0 FROM t0" if "tables" in name else "SELECT a FROM t"
        yield f"catalogue, {name}", catalog, query, wanted
        yield f"catalogue, {name}, and a byte", catalog + " ", query, (CATALOG_REFUSED, "catalog refused: too long\n")


def main():
    options = argparse.ArgumentParser(description="runs the program on the longest texts of every kind")
    options.add_argument("--program", default=os.path.join(TOP, "crates", "orca", "out", "orca"))
    runner_program = os.path.abspath(options.parse_args().program)
    began, count, bad = time.time(), 0, 0
    with tempfile.TemporaryDirectory() as folder:
        runner = Runner(runner_program, folder)
        for name, words, files, (status, text) in cases():
            count += 1
            found = runner.run(words, files)
            if found != (status, text):
                bad += 1
                print(f"{name}: status {found[0]}, {found[1][:200]!r}, and not {status}, {text[:200]!r}", flush=True)
    print(f"{count} texts in {time.time() - began:.0f} s; {bad} answered badly")
    sys.exit(1 if bad else 0)


if __name__ == "__main__":
    main()
