#!/usr/bin/env python3
"""Tests tools/execute.py. It needs Python alone, and for some tests the built program (ORCA_PROGRAM names another)."""

import os
import random
import re
import subprocess
import sys

from compare import PARTS, random_query
from execute import difference, same_runs, sqlite_rows, sqlite_text
from execution import Execution, Fault
from known_plans import KNOWN
from orca_program import TOP
from plan_of_query import check_nodes
from printed_plan import NotAPlan, read_plan
from random_rows import any_sizes, catalog_sizes, place_tables, segment_of
from read_query import NotAQuery, read_query
from run_tests import PROGRAM, check_transcripts, run_tests

CATALOG = """{"version": 1, "segments": 4, "tables": [
  {"name": "s", "rows": 100, "distribution": ["c"], "indexes": [["d"]],
   "columns": [{"name": "c", "ndv": 50}, {"name": "d", "ndv": 10}, {"name": "x", "ndv": 10}]},
  {"name": "t", "rows": 50, "distribution": "random",
   "columns": [{"name": "k", "ndv": 50}, {"name": "n", "ndv": 5}]}]}"""

JOIN = "SELECT x FROM s, t WHERE c = k AND n = 5 AND d < 3 ORDER BY x"
GROUPS = "SELECT n, COUNT(*), SUM(k) AS total, MIN(k), MAX(k) FROM t GROUP BY n ORDER BY n"
COUNT = "SELECT COUNT(*), SUM(k), MIN(n) FROM t WHERE n = 7"

# plans that answer their queries; a node is written without its rows and its cost
RIGHT = [
    (JOIN, "GatherMerge(s.x)|  Sort(s.x)|    HashJoin(colocated p0)|      IndexSeek(s, i0)"
           "|      Redistribute(t.k)|        Filter(t)|          Scan(t)"),
    (JOIN, "GatherMerge(s.x)|  Sort(s.x)|    MergeJoin(colocated p0)|      Sort(s.c)|        IndexSeek(s, i0)"
           "|      Sort(t.k)|        Redistribute(t.k)|          Filter(t)|            Scan(t)"),
    (JOIN, "GatherMerge(s.x)|  LoopJoin(copied)|    Sort(s.x)|      Filter(s)|        IndexScan(s, i0)"
           "|    Broadcast|      Filter(t)|        Scan(t)"),
    (JOIN, "Sort(s.x)|  HashJoin(one)|    Gather|      IndexSeek(s, i0)|    Gather|      Filter(t)|        Scan(t)"),
    (GROUPS, "GatherMerge(t.n)|  StreamAgg(hashed t.n)|    Sort(t.n)|      Redistribute(t.n)|        PartialAgg"
             "|          Scan(t)"),
    (GROUPS, "StreamAgg(one)|  GatherMerge(t.n)|    Sort(t.n)|      Scan(t)"),
    (GROUPS, "Sort(t.n)|  HashAgg(one)|    Gather|      PartialAgg|        Scan(t)"),
    (COUNT, "HashAgg(one)|  Gather|    PartialAgg|      Filter(t)|        Scan(t)"),
]

# the same where each segment has a copy of t
REPLICATED = CATALOG.replace('"version": 1', '"version": 2').replace('"random"', '"replicated", "indexes": [["n"]]')
OF_COPIES = [
    (JOIN, "GatherMerge(s.x)|  Sort(s.x)|    HashJoin(copied)|      IndexSeek(s, i0)|      Filter(t)"
           "|        Scan(t copies)"),
    (JOIN, "Sort(s.x)|  HashJoin(one)|    Gather|      IndexSeek(s, i0)|    Filter(t)|      Scan(t one)"),
    (GROUPS, "GatherMerge(t.n)|  StreamAgg(hashed t.n)|    Sort(t.n)|      Redistribute(t.n)|        PartialAgg"
             "|          Scan(t own)"),
    (GROUPS, "Sort(t.n)|  HashAgg(one)|    Scan(t one)"),
    (GROUPS, "StreamAgg(one)|  IndexScan(t, i0 one)"),
    (GROUPS, "GatherMerge(t.n)|  StreamAgg(hashed t.n)|    Sort(t.n)|      Redistribute(t.n)"
             "|        IndexScan(t, i0 own)"),
    (COUNT, "HashAgg(one)|  IndexSeek(t, i0 one)"),
    (COUNT, "HashAgg(one)|  Gather|    PartialAgg|      IndexSeek(t, i0 own)"),
]
WRONG_OF_COPIES = [
    (GROUPS, "Sort(t.n)|  HashAgg(one)|    Gather|      Scan(t copies)", "needs what is spread"),
    (GROUPS, "Sort(t.n)|  HashAgg(one)|    Gather|      Scan(t)", "doesn't say how it reads"),
    (GROUPS, "Sort(t.n)|  HashAgg(one)|    Gather|      Scan(t mine)", "isn't told as a read is"),
    (JOIN, "Sort(s.x)|  HashJoin(one)|    IndexSeek(s, i0 one)|    Filter(t)|      Scan(t one)",
     "IndexSeek(s, i0 one) reads a copy of s, which has none"),
]

# plans that don't, and a part of what is told
WRONG = [
    (JOIN, "GatherMerge(s.x)|  HashJoin(colocated p0)|    IndexSeek(s, i0)|    Redistribute(t.k)|      Filter(t)"
           "|        Scan(t)", "GatherMerge(s.x) stands over rows that aren't in its order"),
    (JOIN, "GatherMerge(s.x)|  Sort(s.x)|    HashJoin(colocated p0)|      IndexSeek(s, i0)|      Filter(t)"
           "|        Scan(t)", "don't lie by the hash of t.k"),
    (JOIN, "Gather|  Sort(s.x)|    HashJoin(colocated p0)|      IndexSeek(s, i0)|      Redistribute(t.k)"
           "|        Filter(t)|          Scan(t)", "isn't in the order of ORDER BY"),
    (JOIN, "GatherMerge(s.x)|  Sort(s.x)|    HashJoin(colocated p0)|      IndexSeek(s, i0)|      Redistribute(t.k)"
           "|        Scan(t)", "other rows than SQLite"),
    (JOIN, "GatherMerge(s.x)|  Sort(s.x)|    HashJoin(copied)|      IndexSeek(s, i0)|      Filter(t)|        Scan(t)",
     "needs what is copied to each segment"),
    (JOIN, "Sort(s.x)|  MergeJoin(one p0)|    Gather|      IndexSeek(s, i0)|    Gather|      Filter(t)"
           "|        Scan(t)", "aren't in its order"),
    (JOIN, "Sort(s.x)|  HashJoin(colocated p0)|    IndexSeek(s, i0)|    Redistribute(t.k)|      Filter(t)"
           "|        Scan(t)", "at one place are asked for"),
    (JOIN, "GatherMerge(s.x)|  Sort(s.x)|    HashJoin(colocated p0)|      IndexSeek(s, i1)|      Redistribute(t.k)"
           "|        Filter(t)|          Scan(t)", "an index that the table doesn't have"),
    (JOIN, "GatherMerge(s.x)|  Sort(s.x)|    HashJoin(colocated p1)|      IndexSeek(s, i0)|      Redistribute(t.k)"
           "|        Filter(t)|          Scan(t)", "predicate 1 is no equality between the two sides"),
    (JOIN, "GatherMerge(s.x)|  Sort(s.x)|    IndexSeek(s, i0)", "doesn't read each table"),
    (JOIN, "Gather|  Scan(t)|  Scan(s)", "stands over 2 nodes in place of 1"),
    (GROUPS, "GatherMerge(t.n)|  Sort(t.n)|    PartialAgg|      Scan(t)", "the plan gives partial groups"),
    (GROUPS, "GatherMerge(t.n)|  Sort(t.n)|    HashAgg(hashed t.n)|      PartialAgg|        Scan(t)",
     "don't lie by the hash of t.n"),
    (GROUPS, "GatherMerge(t.n)|  StreamAgg(hashed t.n)|    Redistribute(t.n)|      Scan(t)", "aren't in its order"),
    (GROUPS, "Sort(t.n)|  HashAgg(one)|    Gather|      HashAgg(one)|        Gather|          Scan(t)",
     "needs what is"),
    (GROUPS, "Sort(total)|  HashAgg(one)|    Gather|      Scan(t)", "isn't in the order of ORDER BY"),
    (COUNT, "Gather|  HashAgg(hashed t.n)|    Redistribute(t.n)|      Filter(t)|        Scan(t)", "isn't in GROUP BY"),
]


def plan_of(query, nodes):
    """The plan of these nodes, each of which costs 1."""
    lines = [f"{node} rows=1 cost=1" for node in nodes.split("|")]
    return read_plan("\n".join([f"cost {len(lines)}", f"output {query.output_text()}", *lines]))


def told(query, sql, plan, seed=1, sizes=catalog_sizes(30, 6)):
    """What is told of the plan: a fault, a difference, or nothing."""
    pick = random.Random(seed)
    placed = place_tables(query, pick, sizes)
    try:
        check_nodes(query, plan)
        return difference(Execution(query, placed, pick), plan, sqlite_rows(sql, placed))
    except (Fault, NotAPlan) as fault:
        return str(fault)


def execute(*words):
    """The status of the tool, and what it says on both outputs."""
    done = subprocess.run(
        [sys.executable, os.path.join(TOP, "tools", "execute.py"), *words],
        stdout=subprocess.PIPE, stderr=subprocess.STDOUT, text=True, cwd=TOP,
    )
    return done.returncode, done.stdout


# ---- without the program


def right_plans_answer_as_sqlite():
    for sql, nodes in RIGHT:
        query = read_query(CATALOG, sql)
        for seed in range(5):
            found = told(query, sql, plan_of(query, nodes), seed, any_sizes(random.Random(seed)))
            assert found is None, (nodes, found)


def copies_are_read_as_the_plan_says():
    for sql, nodes in OF_COPIES:
        query = read_query(REPLICATED, sql)
        for seed in range(5):
            found = told(query, sql, plan_of(query, nodes), seed)
            assert found is None, (nodes, found)
    for sql, nodes, reason in WRONG_OF_COPIES:
        query = read_query(REPLICATED, sql)
        assert reason in told(query, sql, plan_of(query, nodes)), nodes


def plans_known_by_hand_answer_as_sqlite():
    for query, text in KNOWN:
        if text != "no plan\n":
            found = told(query, query.sql(), read_plan(text))
            assert found is None, (text, found)


def wrong_plans_are_told():
    for sql, nodes, reason in WRONG:
        query = read_query(CATALOG, sql)
        found = told(query, sql, plan_of(query, nodes))
        assert found and reason in found, (nodes, found)


def tables_may_be_empty():
    for sql, nodes in RIGHT:
        query = read_query(CATALOG, sql)
        assert told(query, sql, plan_of(query, nodes), sizes=catalog_sizes(0, 1)) is None, nodes


def rows_lie_by_the_hash_of_their_columns():
    query = read_query(CATALOG, JOIN)
    table = place_tables(query, random.Random(1), catalog_sizes(40, 10))["s"]
    assert len(table.rows()) == 40 and sum(bool(part) for part in table.parts) > 1
    for segment, part in enumerate(table.parts):
        assert all(segment_of([row[0]], 4) == segment for row in part)


def compared_columns_have_common_values():
    query = read_query(CATALOG, "SELECT x FROM s, t WHERE c = k AND n = 'a''b' AND d > -7")
    placed = place_tables(query, random.Random(1), catalog_sizes(40, 10))
    assert {row[0] for row in placed["s"].rows()} & {row[0] for row in placed["t"].rows()}
    assert "a'b" in {row[1] for row in placed["t"].rows()} and -7 in {row[1] for row in placed["s"].rows()}


def rows_with_equal_keys_may_stand_in_any_order():
    assert same_runs([1, 1, 2], ["a", "b", "c"], ["b", "a", "c"])
    assert not same_runs([1, 1, 2], ["a", "b", "c"], ["a", "c", "b"])


def names_are_quoted_for_sqlite():
    text = "select count(*) as index, MIN(a.count) from t a -- all\nwhere a.b = 'from' and c < -5;"
    quoted = (
        'SELECT COUNT ( * ) AS "index" , MIN ( "a" . "count" ) '
        """FROM "t" "a" WHERE "a" . "b" = 'from' AND "c" < -5 ;"""
    )
    assert sqlite_text(text) == quoted, sqlite_text(text)


def queries_are_read_as_they_were_made():
    for case in range(100):
        made = random_query(random.Random(case), 4, PARTS, [1, 2])
        read = read_query(made.catalog(), made.sql())
        for part in ["version", "segments", "tables", "preds", "output", "order", "group_by"]:
            assert getattr(read, part) == getattr(made, part), (case, part)


def texts_that_are_no_query_are_refused():
    for text, reason in [
        ("SELECT x FROM s WHERE", "the query can't be read: grammar at 21"),
        ("SELECT x FROM u", "unknown table at 14"),
        ("SELECT x FROM s, s AS z", "ambiguous column at 7"),
    ]:
        try:
            read_query(CATALOG, text)
        except NotAQuery as fault:
            assert reason in str(fault), (text, str(fault))
        else:
            raise AssertionError(f"taken as a query: {text}")


# ---- with the program


def random_queries_answer_as_sqlite():
    status, said = execute("--cases", "40", "--program", PROGRAM)
    assert status == 0 and " 0 differ\n" in said, said


def a_query_is_executed_and_analyzed():
    status, said = execute("examples/two_tables.json", "examples/join.sql", "--analyze", "--program", PROGRAM)
    assert status == 0 and re.search(r"\n    HashJoin\(colocated p0\) +\d+ +\d+ +\d+\n", said), said
    assert re.search(r"\n[\d,]+ rows, as SQLite answers, in an order that ORDER BY allows\n", said), said


def a_refused_query_is_shown_with_its_place():
    status, said = execute("examples/two_tables.json", "examples/ambiguous.sql", "--program", PROGRAM)
    assert status == 3 and said.endswith("       ^\n"), said


def the_page_shows_what_is_printed():
    check_transcripts("TOOLS.md", "tools/execute.py")


WITHOUT_PROGRAM = [
    right_plans_answer_as_sqlite,
    copies_are_read_as_the_plan_says,
    plans_known_by_hand_answer_as_sqlite,
    wrong_plans_are_told,
    tables_may_be_empty,
    rows_lie_by_the_hash_of_their_columns,
    compared_columns_have_common_values,
    rows_with_equal_keys_may_stand_in_any_order,
    names_are_quoted_for_sqlite,
    queries_are_read_as_they_were_made,
    texts_that_are_no_query_are_refused,
]
WITH_PROGRAM = [
    random_queries_answer_as_sqlite,
    a_query_is_executed_and_analyzed,
    a_refused_query_is_shown_with_its_place,
    the_page_shows_what_is_printed,
]

if __name__ == "__main__":
    run_tests(WITHOUT_PROGRAM, WITH_PROGRAM)
