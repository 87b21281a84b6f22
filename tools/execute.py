#!/usr/bin/env python3
"""Executes a plan over random rows, and compares what it gives with what SQLite answers to the same query.

It has the program plan a query over a catalogue, or takes the plan of a file with --plan. It makes small random tables,
places their rows on the segments as the catalogue says, executes the plan node by node as its text says
(execution.py), and hands the same tables and the same query to SQLite. The rows have to be the same, each as often, and
in an order that ORDER BY allows; with --root spread each segment's rows have to be in it.

  --rows N     at most so many rows of a table; a table has no more than the catalogue says
  --values N   at most so many values of a column; a column has no more than the catalogue says
  --seed N     the number by which rows are made
  --analyze    the rows that are estimated for the tables as they were made beside those that came up

With --cases it takes so many random queries (those of compare.py, made by --seed and the numbers after it), with
--folder each query of a folder with either root, and prints how often each kind of node came up. Tables have up to
twelve rows then, whatever the catalogue says.

Usage: tools/execute.py CATALOG QUERY [--root one|spread] [--off RULE+RULE] [--workers N] [--capacity N]
       [--plan FILE] [--rows N] [--values N] [--seed N] [--analyze] [--program PROGRAM]
       tools/execute.py --cases N [--seed N] [--tables N] [--parts PART,PART] [--versions N,N] [--program PROGRAM]
       tools/execute.py --folder FOLDER [--catalog NAME] [--seed N] [--program PROGRAM]
"""

import argparse
import collections
import json
import os
import random
import sqlite3
import sys
import tempfile

from compare import PARTS, cases_of_folder, random_cases
from execution import COPIES, GROUPS, ONE_PLACE, ROWS, SPREAD, Execution, Fault, TooManyRows, is_in_order, order_key
from orca_program import NO_PLAN, PLANNED, NoAnswer, plan_options, plan_words, planned_text, run, text_of_file
from plain_plans import ONE, literal_text
from plain_sql import tokens_of
from plan_of_query import AGGREGATIONS, JOINS, READS, check_nodes, table_of, tables_below
from printed_plan import NotAPlan, aligned, read_plan, section
from random_rows import any_sizes, catalog_sizes, name_of, place_tables
from read_query import NotAQuery, read_query

KINDS = [
    "Scan", "IndexScan", "IndexSeek", "Filter", "HashJoin(one)", "HashJoin(copied)", "HashJoin(colocated)",
    "MergeJoin(one)", "MergeJoin(copied)", "MergeJoin(colocated)", "LoopJoin(one)", "LoopJoin(copied)", "HashAgg(one)",
    "HashAgg(hashed)", "StreamAgg(one)", "StreamAgg(hashed)", "PartialAgg", "Sort", "Gather", "GatherMerge",
    "Redistribute", "Broadcast",
]

# ---- SQLite's answer


def sqlite_text(text):
    """The query with its names in quotes, since some of them are SQLite's own words."""
    tokens, _ = tokens_of(text.encode())
    return " ".join(map(sqlite_word, tokens))


def sqlite_word(token):
    if token.kind == "name":
        return f'"{token.value}"'
    return literal_text(token.value) if token.kind in ("integer", "string") else token.value


def sqlite_rows(text, placed):
    """What SQLite answers to the query over these tables."""
    database = sqlite3.connect(":memory:")
    try:
        for name, table in placed.items():
            columns = ", ".join(f'"{column}"' for column in table.columns)
            database.execute(f'CREATE TABLE "{name}" ({columns})')
            database.executemany(f'INSERT INTO "{name}" VALUES ({", ".join("?" for _ in table.columns)})', table.rows())
        return database.execute(sqlite_text(text)).fetchall()
    except (sqlite3.Error, OverflowError) as fault:
        raise NoAnswer(f"SQLite doesn't answer the query: {fault}") from fault
    finally:
        database.close()


# ---- the comparison


def output_of(execution, row):
    """What the query puts out of a row of the root."""
    query = execution.query
    names = iter(range(len(query.aggs)))
    return tuple(
        row[f"aggregate {next(names)}" if isinstance(what[0], str) else query.column_text(what)]
        for what, _ in query.output
    )


def difference(execution, plan, answer):
    """How what the plan gives differs from the answer of SQLite, or None."""
    query = execution.query
    given = execution.execute(plan.root)
    lie, kind = ONE_PLACE if query.root == ONE else SPREAD, GROUPS if query.grouped else ROWS
    if (given.lie, given.kind) != (lie, kind):
        return f"the plan gives {given.kind} {given.lie}, and {kind} {lie} are asked for"
    key = order_key(execution.elements(plan.root, query.order_text(query.wanted)) if query.wanted else [])
    if not all(is_in_order(part, key) for part in given.parts):
        return "what the plan gives isn't in the order of ORDER BY"
    rows = [output_of(execution, row) for row in given.rows()]
    if collections.Counter(rows) != collections.Counter(answer):
        return f"the plan gives other rows than SQLite\nthe plan  {shown(rows)}\nSQLite    {shown(answer)}"
    if lie == ONE_PLACE and not same_runs(list(map(key, given.rows())), rows, answer):
        return f"the plan gives another order than SQLite\nthe plan  {shown(rows)}\nSQLite    {shown(answer)}"
    return None


def same_runs(keys, rows, answer):
    """Whether rows with one key stand at the same places, in any order among them."""
    begin = 0
    for end in range(1, len(keys) + 1):
        if end == len(keys) or keys[end] != keys[begin]:
            if collections.Counter(rows[begin:end]) != collections.Counter(answer[begin:end]):
                return False
            begin = end
    return True


def shown(rows, most=20):
    return ", ".join(map(str, rows[:most])) + (f", and {len(rows) - most} more" if len(rows) > most else "")


# ---- estimated and actual rows


def smaller_catalog(text, query, sizes):
    """The catalogue's text with the sizes of the tables that were made, without histograms, which rows don't follow."""
    catalog = json.loads(text)
    made = {name_of(table): sizes(table) for table in query.tables}
    for table in catalog["tables"]:
        if table["name"] in made:
            table["rows"], values = made[table["name"]]
            for column in table["columns"]:
                column["ndv"] = values[column["name"]]
                column.pop("histogram", None)
    return json.dumps(catalog)


def estimates(asked, query, catalog_text, sizes):
    """The estimated rows of each group by its text, for tables of the sizes that were made."""
    with tempfile.TemporaryDirectory() as folder:
        name = os.path.join(folder, "catalog.json")
        with open(name, "w") as file:
            file.write(smaller_catalog(catalog_text, query, sizes))
        _, text = run(asked.program, ["plan", name, asked.names[1], "--memo", *plan_words(asked)])
    groups = [line.rsplit(" rows=", 1) for line in section(text, "memo") if line.startswith("group ")]
    return {group[len("group ") :]: int(rows) for group, rows in groups}


def group_text(query, node):
    """The group of a node, as the memo writes it."""
    if node.operator in AGGREGATIONS:
        return "Agg"
    if node.operator == "PartialAgg":
        return "Partial"
    if node.operator in JOINS:
        return f"Join({', '.join(query.tables[t]['name'] for t in sorted(tables_below(query, node)))})"
    if node.operator in READS + ["Filter"]:
        group = "Get" if node.operator in ("Scan", "IndexScan") else "Filter"
        return f"{group}({query.tables[table_of(query, node)]['name']})"
    return group_text(query, node.kids[0])


def analysis(execution, plan, estimated):
    """The tree with the estimated and the actual rows, and those of the segment that has the most."""
    lines = [["node", "estimated", "actual", "on a segment"]]
    for depth, node in plan.root.walk():
        given = execution.given[node]
        rows = estimated.get(group_text(execution.query, node))
        most = "" if given.lie == ONE_PLACE else f"{given.most():,}" + (" copied" if given.lie == COPIES else "")
        lines.append(["  " * depth + node.name, "" if rows is None else f"{rows:,}", f"{len(given.rows()):,}", most])
    return aligned(lines)


# ---- one query


def execute_one(asked):
    """Executes one plan, tells how it went, and gives the status."""
    plan = read_plan(text_of_file(asked.plan) if asked.plan else planned_text(asked))
    catalog_text, text = map(text_of_file, asked.names)
    root = ("Spread",) if asked.root == "spread" else ONE
    query = read_query(catalog_text, text, root)
    check_nodes(query, plan)
    pick, sizes = random.Random(asked.seed), catalog_sizes(asked.rows, asked.values)
    placed = place_tables(query, pick, sizes)
    execution = Execution(query, placed, pick)
    differs = difference(execution, plan, sqlite_rows(text, placed))
    print("tables " + ", ".join(f"{name} {len(table.rows()):,}" for name, table in placed.items()))
    if differs:
        print(differs)
        return 1
    if asked.analyze:
        print(analysis(execution, plan, estimates(asked, query, catalog_text, sizes)))
    count = len(execution.given[plan.root].rows())
    rows = "1 row" if count == 1 else f"{count:,} rows"
    print(f"{rows}, as SQLite answers" + (", in an order that ORDER BY allows" if query.wanted else ""))
    return 0


# ---- many queries


def kind_of(node):
    """A node's operator, and the mode of a join or an aggregation."""
    mode = node.inside.split(" ")[0]
    return f"{node.operator}({mode})" if node.operator in JOINS + AGGREGATIONS else node.operator


def case_difference(asked, name, query, files, kinds):
    """Executes a query's plan; how it differs from SQLite's answer, or None. Counts the kinds of its nodes."""
    status, text = run(asked.program, ["plan", *files, *query.words()])
    if status == NO_PLAN:
        kinds["no plan"] += 1
        return None
    if status != PLANNED:
        return f"status {status}: {text}"
    pick = random.Random(f"{asked.seed} {name}")
    placed = place_tables(query, pick, any_sizes(pick))
    try:
        plan = read_plan(text)
        check_nodes(query, plan)
        kinds.update(map(kind_of, plan.nodes()))
        differs = difference(Execution(query, placed, pick), plan, sqlite_rows(text_of_file(files[1]), placed))
    except (Fault, NotAPlan) as fault:
        differs = f"a fault of the plan: {fault}"
    return f"{differs}\n{text}" if differs else None


def execute_many(asked):
    """Executes the plans of many queries, tells what differs and which kinds of nodes came up, and gives the status."""
    kinds, count, differ = collections.Counter(), 0, 0
    with tempfile.TemporaryDirectory() as folder:
        cases = cases_of_folder(asked.folder, asked.catalog) if asked.folder else random_cases(asked, folder)
        for name, query, *files in cases:
            count += 1
            try:
                differs = case_difference(asked, name, query, files, kinds)
            except TooManyRows:
                kinds["too many rows"] += 1
                continue
            if differs:
                differ += 1
                print(f"{name}\n{query.catalog()}\n{query.sql()} {' '.join(query.words())}\n{differs}")
    without, too_many = kinds["no plan"], kinds["too many rows"]
    print(f"{count} queries, {without} of them without a plan, {too_many} with too many rows, {differ} differ")
    print(aligned([[kind, f"{kinds[kind]:,}"] for kind in KINDS]))
    return 1 if differ or not count else 0


def options_of(words):
    options = argparse.ArgumentParser(description="executes plans over random rows, and compares with SQLite")
    options.add_argument("names", nargs="*", metavar="NAME", help="a catalogue and a query")
    options.add_argument("--plan", metavar="FILE", help="take the plan of this file")
    options.add_argument("--rows", type=int, default=40, help="the most rows of a table")
    options.add_argument("--values", type=int, default=10, help="the most values of a column")
    options.add_argument("--seed", type=int, default=1, help="the number by which rows and queries are made")
    options.add_argument("--analyze", action="store_true", help="show estimated and actual rows")
    options.add_argument("--cases", type=int, default=0, help="so many random queries")
    options.add_argument("--tables", type=int, default=4, help="the most tables of a random query")
    options.add_argument("--parts", default=",".join(PARTS), help="what random queries may have")
    options.add_argument("--versions", default="1", help="the versions of random catalogues, of 1 and 2")
    options.add_argument("--folder", help="the queries of this folder")
    options.add_argument("--catalog", default="catalog.json", help="the folder's catalogue, catalog.json if not given")
    plan_options(options)
    asked = options.parse_args(words)
    if len(asked.names) != (0 if asked.cases or asked.folder else 2):
        options.error("a catalogue and a query are asked for, or --cases, or --folder")
    return asked


def main():
    asked = options_of(sys.argv[1:])
    try:
        sys.exit(execute_one(asked) if asked.names else execute_many(asked))
    except Fault as fault:
        print(f"a fault of the plan: {fault}")
        sys.exit(1)
    except OSError as fault:
        sys.exit(f"tools/execute.py: {fault.filename} can't be read: {fault.strerror}")
    except TooManyRows as fault:
        sys.exit(f"tools/execute.py: {fault}; --rows makes smaller tables")
    except (NoAnswer, NotAPlan, NotAQuery) as fault:
        sys.exit(f"tools/execute.py: {fault}")


if __name__ == "__main__":
    main()
