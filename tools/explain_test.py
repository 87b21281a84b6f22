#!/usr/bin/env python3
"""Tests tools/explain.py. It needs Python alone, and for some tests the built program (ORCA_PROGRAM names another)."""

import json
import os
import subprocess
import sys
import tempfile

from explain import changes_text, json_text, tree_text
from known_plans import KNOWN
from orca_program import TOP, refusal_text
from printed_plan import NotAPlan, read_plan
from run_tests import PROGRAM, check_transcripts, run_tests

SORTED = """cost 5253
output t.a
GatherMerge(t.a) rows=1000 cost=3001
  Sort(t.a) rows=1000 cost=2001
    Scan(t) rows=1000 cost=251
"""

SORTED_TREE = """cost 5,253
output t.a

node               rows   cost  total  share
GatherMerge(t.a)  1,000  3,001  5,253  57.1%
  Sort(t.a)       1,000  2,001  2,252  38.1%
    Scan(t)       1,000    251    251   4.8%"""

# what PostgreSQL 15 prints of a node of each type, besides what it prints of all
OF_ALL = {"Node Type", "Parallel Aware", "Async Capable", "Startup Cost", "Total Cost", "Plan Rows", "Plan Width"}
OF_MANY = {"Parent Relationship", "Plans"}
JOIN_KEYS = {"Join Type", "Inner Unique", "Join Filter"}
POSTGRES_KEYS = {
    "Seq Scan": {"Relation Name", "Alias", "Filter"},
    "Index Scan": {"Scan Direction", "Index Name", "Relation Name", "Alias", "Index Cond", "Filter"},
    "Subquery Scan": {"Alias", "Filter"},
    "Hash Join": JOIN_KEYS | {"Hash Cond"},
    "Merge Join": JOIN_KEYS | {"Merge Cond"},
    "Nested Loop": JOIN_KEYS,
    "Aggregate": {"Strategy", "Partial Mode", "Group Key", "Planned Partitions"},
    "Sort": {"Sort Key"},
    "Gather": {"Workers Planned", "Single Copy"},
    "Gather Merge": {"Workers Planned"},
}
GREENPLUM_KEYS = {"Redistribute Motion": {"Hash Key"}, "Broadcast Motion": set()}


def nodes_of(node):
    yield node
    for below in node.get("Plans", []):
        yield from nodes_of(below)


def file_with(text):
    file = tempfile.NamedTemporaryFile("w", suffix=".sql", delete=False)
    with file:
        file.write(text)
    return file.name


def explain(*words):
    """The status of the tool, and what it says on both outputs."""
    done = subprocess.run(
        [sys.executable, os.path.join(TOP, "tools", "explain.py"), *words],
        stdout=subprocess.PIPE, stderr=subprocess.STDOUT, text=True, cwd=TOP,
    )
    return done.returncode, done.stdout


def with_program(*words):
    return explain(*words, "--program", PROGRAM)


# ---- without the program


def a_tree_has_costs_totals_and_shares():
    assert tree_text(read_plan(SORTED), None) == SORTED_TREE


def texts_that_are_no_plan_are_refused():
    for text, reason in [
        ("no plan\n", "no plan in a text"),
        ("cost 5\noutput t.a\n", "a line of its cost"),
        (SORTED.replace("5253", "5254"), "the nodes cost 5253"),
        (SORTED.replace("  Sort", "      Sort"), "stands below no other"),
        (SORTED.replace("  Sort", "Sort"), "stands below no other"),
        (SORTED.replace(" rows=1000 cost=251", ""), "no line of a node"),
    ]:
        try:
            read_plan(text)
        except NotAPlan as fault:
            assert reason in str(fault), (reason, str(fault))
        else:
            raise AssertionError(f"taken as a plan: {text}")


def keys_of_nodes_are_those_of_postgresql():
    for query, text in KNOWN:
        if text == "no plan\n":
            continue
        for known in (None, query):
            (whole,) = json.loads(json_text(read_plan(text), known))
            assert list(whole) == ["Plan"] and whole["Plan"]["Total Cost"] == read_plan(text).cost
            for node in nodes_of(whole["Plan"]):
                own = {**POSTGRES_KEYS, **GREENPLUM_KEYS}[node["Node Type"]]
                assert OF_ALL <= set(node) <= OF_ALL | OF_MANY | own, node


def a_change_tells_what_stands_in_place_of_what():
    other = read_plan(SORTED.replace("GatherMerge(t.a)", "Gather"))
    assert changes_text(read_plan(SORTED), other) == "Gather in place of GatherMerge(t.a)"
    assert changes_text(read_plan(SORTED), read_plan(SORTED)) == "the same plan"


def the_place_of_a_fault_is_marked():
    for text, place, marked in [
        ("SELECT a\n\tFROM t, u\nWHERE", 13, "line 2, column 5\n\tFROM t, u\n\t   ^"),
        ("SELECT a FROM\n", 14, "line 1, column 14\nSELECT a FROM\n             ^"),
        ("SELECT \xe9", 7, "line 1, column 8\nSELECT ??\n       ^"),
    ]:
        name = file_with(text)
        told = refusal_text(f"query refused: grammar at {place}", name)
        os.remove(name)
        assert told == f"query refused: grammar at {place}\n{name}, {marked}", told


def a_refusal_without_a_place_stands_alone():
    assert refusal_text("query refused: too many columns: 61", "nowhere") == "query refused: too many columns: 61"


def what_is_missing_is_told():
    for words, reason in [
        (["nowhere.txt"], "nowhere.txt can't be read"),
        (["examples/t.json", "examples/q.sql", "--program", "./nothing"], "the program ./nothing can't be run"),
    ]:
        status, said = explain(*words)
        assert status == 1 and said.startswith("tools/explain.py: ") and reason in said, said


# ---- with the program


def a_query_is_planned_and_its_predicates_are_told():
    status, said = with_program("examples/two_tables.json", "examples/join.sql")
    (line,) = [line for line in said.splitlines() if "HashJoin" in line]
    assert status == 0 and line.endswith("1,000  1,001  2,504  13.3%  T1.a = T2.b"), said


def predicates_stand_in_the_json():
    status, said = with_program("examples/sales.json", "examples/one_day.sql", "--json")
    conditions = [node["Index Cond"] for node in nodes_of(json.loads(said)[0]["Plan"]) if "Index Cond" in node]
    assert status == 0 and conditions == ["(sales.day = 100)"], said


def what_a_rule_saves_is_the_difference_of_two_plans():
    words = ["examples/two_tables.json", "examples/join.sql"]
    status, said = with_program(*words, "--why")
    command = [PROGRAM, "plan", *words, "--off", "JoinToHash"]
    cost = read_plan(subprocess.run(command, stdout=subprocess.PIPE, text=True, cwd=TOP).stdout).cost
    (line,) = [line for line in said.splitlines() if line.startswith("JoinToHash")]
    assert status == 0 and line.split()[1:3] == [f"{cost:,}", f"{cost - 7506:,}"], said


def a_refused_query_is_shown_with_its_place():
    status, said = with_program("examples/two_tables.json", "examples/ambiguous.sql")
    assert status == 3 and said.startswith("query refused: ambiguous column at 7\n") and "\n       ^" in said, said


def the_page_shows_what_is_printed():
    check_transcripts("TOOLS.md", "tools/explain.py")


WITHOUT_PROGRAM = [
    a_tree_has_costs_totals_and_shares,
    texts_that_are_no_plan_are_refused,
    keys_of_nodes_are_those_of_postgresql,
    a_change_tells_what_stands_in_place_of_what,
    the_place_of_a_fault_is_marked,
    a_refusal_without_a_place_stands_alone,
    what_is_missing_is_told,
]
WITH_PROGRAM = [
    a_query_is_planned_and_its_predicates_are_told,
    predicates_stand_in_the_json,
    what_a_rule_saves_is_the_difference_of_two_plans,
    a_refused_query_is_shown_with_its_place,
    the_page_shows_what_is_printed,
]

if __name__ == "__main__":
    run_tests(WITHOUT_PROGRAM, WITH_PROGRAM)
