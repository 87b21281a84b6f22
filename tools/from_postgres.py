#!/usr/bin/env python3
"""Writes the catalogue of a live PostgreSQL database, from its own catalogue and the statistics that ANALYZE made.

The database is asked through psql: whatever stands behind -- are psql's own words, and its environment (PGHOST,
PGDATABASE ..) holds. The catalogue goes to standard output. What it can't express is left out, and each such thing is
told on standard error in a line.

A column's number of distinct values is that of pg_stats; where that is negative, it is a share of the rows. Where the
column has no statistics, it is 200, as PostgreSQL takes it, or the rows where these are fewer.

PostgreSQL keeps all rows in one place, so the segments and where each table lies are options: a table lies at random
where no option names it.

The catalogue is one of version 2, which has tables with a copy on each segment and histograms of integer columns, or
with --version 1 one of version 1, which has neither.

Usage: tools/from_postgres.py --segments N [--schema NAME] [--hash TABLE=COLUMN,COLUMN].. [--replicate TABLE]..
       [--version 1|2] [-- PSQL'S WORDS]
"""

import argparse
import json
import re
import subprocess
import sys
from bisect import bisect_right

NAME = re.compile(r"[A-Za-z_][A-Za-z0-9_]{0,63}")
RESERVED = set("""SELECT FROM WHERE AND GROUP BY ORDER ASC DESC AS DISTINCT HAVING LIMIT JOIN ON OR NOT UNION IN IS LIKE
BETWEEN NULL INNER LEFT RIGHT FULL CROSS""".split())
INTEGERS = ("int2", "int4", "int8")
MOST, MOST_TABLES, MOST_COLUMNS, MOST_INDEXES, LONGEST_LIST, MOST_SEGMENTS = 10**12, 1000, 1000, 16, 8, 1000
MOST_BYTES, MOST_BUCKETS = 1 << 20, 64
UNKNOWN_DISTINCT = 200
KINDS = {"v": "a view", "f": "a foreign table"}

# The tables of a schema, a row each. Partitions are told, their parent has the rows of all.
TABLES = """
SELECT c.oid, c.relname AS name, c.relkind AS kind, c.relispartition AS partition, c.reltuples AS rows
FROM pg_class c JOIN pg_namespace n ON n.oid = c.relnamespace
WHERE n.nspname = :'schema' AND c.relkind IN ('r', 'p', 'm', 'v', 'f') ORDER BY c.relname"""

# Their columns with their statistics. A type is ordered where PostgreSQL has a usual btree order for it, or for one
# that it is a kind of.
COLUMNS = """
SELECT c.oid AS table, a.attnum AS number, a.attname AS name, format_type(a.atttypid, a.atttypmod) AS type,
  t.typname AS base, s.n_distinct AS distinct, s.null_frac AS nulls,
  s.most_common_vals::text::text[] AS common, s.most_common_freqs AS shares,
  s.histogram_bounds::text::text[] AS bounds,
  EXISTS (SELECT FROM pg_opclass o JOIN pg_am m ON m.oid = o.opcmethod
    WHERE m.amname = 'btree' AND o.opcdefault AND (o.opcintype = t.oid
      OR o.opcintype = 'anyenum'::regtype AND t.typtype = 'e'
      OR o.opcintype = 'anyarray'::regtype AND t.typcategory = 'A'
      OR o.opcintype = 'anyrange'::regtype AND t.typtype = 'r'
      OR EXISTS (SELECT FROM pg_cast k WHERE k.castsource = t.oid AND k.casttarget = o.opcintype
        AND k.castmethod = 'b' AND k.castcontext = 'i'))) AS ordered
FROM pg_class c JOIN pg_namespace n ON n.oid = c.relnamespace
  JOIN pg_attribute a ON a.attrelid = c.oid AND a.attnum > 0 AND NOT a.attisdropped
  JOIN pg_type d ON d.oid = a.atttypid
  JOIN pg_type t ON t.oid = CASE d.typtype WHEN 'd' THEN d.typbasetype ELSE d.oid END
  LEFT JOIN pg_stats s ON s.schemaname = n.nspname AND s.tablename = c.relname AND s.attname = a.attname
    AND s.inherited = (c.relkind = 'p')
WHERE n.nspname = :'schema' AND c.relkind IN ('r', 'p', 'm') ORDER BY c.oid, a.attnum"""

# Their indexes; an option of 1 or 3 is a descending column.
INDEXES = """
SELECT i.indrelid AS table, x.relname AS name, m.amname AS method, i.indisvalid AS valid,
  i.indpred IS NOT NULL AS partial, i.indexprs IS NOT NULL AS expressions,
  (i.indkey::int2[])[0:i.indnkeyatts - 1] AS columns, i.indoption::int2[] AS options
FROM pg_index i JOIN pg_class x ON x.oid = i.indexrelid JOIN pg_am m ON m.oid = x.relam
  JOIN pg_class c ON c.oid = i.indrelid JOIN pg_namespace n ON n.oid = c.relnamespace
WHERE n.nspname = :'schema' ORDER BY i.indrelid, x.relname"""


def tell(what):
    print(f"from_postgres: {what}", file=sys.stderr)


# ---- the database


def rows_of(select, schema, words):
    """What a select gives, as a list of objects."""
    command = ["psql", "-X", "-q", "-A", "-t", "-v", "ON_ERROR_STOP=1", "-v", f"schema={schema}", *words]
    asked = f"SELECT coalesce(json_agg(r), '[]') FROM ({select}) r;"
    try:
        done = subprocess.run(command, input=asked, capture_output=True, text=True)
    except FileNotFoundError:
        sys.exit("from_postgres: the command psql isn't on the PATH")
    if done.returncode:
        sys.exit(f"from_postgres: psql says: {done.stderr.strip()}")
    return json.loads(done.stdout)


# ---- what can be expressed


def name_fault(name):
    """Why no catalogue or no query can have the name, if so."""
    if not NAME.fullmatch(name):
        return "the name isn't a letter or _ and then letters, digits and _"
    if name.upper() in RESERVED:
        return "no query can have a reserved word as a name"
    return None


def table_fault(table):
    if table["kind"] in KINDS:
        return KINDS[table["kind"]]
    if table["partition"]:
        return "a partition; the table that it is a part of has its rows"
    if table["rows"] < 0:
        return "its rows aren't known before an ANALYZE"
    return name_fault(table["name"])


def column_fault(column):
    if not column["ordered"]:
        return f"the type {column['type']} has no order"
    return name_fault(column["name"])


def index_fault(index, names):
    """Why an index can't be expressed, if so. It can where its columns, ascending, are all in the catalogue; one that
    is descending throughout is read from its end."""
    if not index["valid"]:
        return "it isn't valid"
    if index["method"] != "btree":
        return f"an index by {index['method']} gives no order"
    if index["partial"]:
        return "it is partial"
    if index["expressions"]:
        return "it is over an expression"
    if len({option & 1 for option in index["options"]}) > 1:
        return "some of its columns descend and some don't"
    if not all(column in names for column in index["columns"]):
        return "it has a column that is left out"
    if len(index["columns"]) > LONGEST_LIST:
        return f"it has more than {LONGEST_LIST} columns"
    if len(set(index["columns"])) < len(index["columns"]):
        return "it has a column twice"
    return None


def expressible(things, fault_of, called, most):
    """Those without a fault, at most so many. The others are told."""
    kept = []
    for thing in things:
        fault = fault_of(thing) or (f"there are {most} others" if len(kept) == most else None)
        if fault:
            tell(f"{called}{thing['name']} is left out: {fault}")
        else:
            kept.append(thing)
    return kept


# ---- estimates


def distinct_values(column, rows, called):
    """The number of distinct values: a share of the rows where the statistics have it negative."""
    found = column["distinct"]
    if not found:
        if rows:
            tell(f"{called} has no statistics: {min(rows, UNKNOWN_DISTINCT)} distinct values are taken")
        return min(rows, UNKNOWN_DISTINCT)
    return min(max(round(-found * rows if found < 0 else found), 1), rows)


def rows_up_to(column, rows):
    """The values at which the statistics say something, ascending, each with the rows that have at most that value."""
    nulls, shares = column["nulls"] or 0, column["shares"] or []
    common = sorted(zip(map(int, column["common"] or []), shares))
    bounds = [int(bound) for bound in column["bounds"] or []]
    rest = max(1 - nulls - sum(shares), 0) if bounds else 0

    def share_below(value):
        """The share of the rows between the bounds that lie at or below the value."""
        if not bounds or value < bounds[0]:
            return 0
        at = bisect_right(bounds, value) - 1
        if at == len(bounds) - 1:
            return rest
        part = (value - bounds[at]) / (bounds[at + 1] - bounds[at])
        return rest * (at + part) / (len(bounds) - 1)

    # (a common value stands in a bucket of its own, so the value below it ends one, too)
    ends = {end for value, _ in common for end in (value - 1, value)} | set(bounds)
    lowest = min([value for value, _ in common] + bounds[:1], default=None)
    for end in sorted(end for end in ends if end >= lowest):
        share = share_below(end) + sum(share for value, share in common if value <= end)
        yield end, round(min(share, 1 - nulls) * rows)


def histogram(column, rows):
    """A histogram of at most 64 buckets with about as many rows in each, or None where nothing is known. A bucket ends
    where it has its share, and before a value that has as many by itself."""
    ends = list(rows_up_to(column, rows))
    if not ends or not ends[-1][1]:
        return None
    buckets, below = [], 0
    for at, (end, up_to) in enumerate(ends):
        left = MOST_BUCKETS - len(buckets)
        share = (ends[-1][1] - below) / left
        behind = ends[at + 1:]
        is_full = up_to - below >= share or behind and behind[0][1] - up_to >= share
        if not behind or len(behind) < left or is_full and left > 1:
            buckets.append({"upto": end, "rows": min(up_to - below, MOST)})
            below = up_to
    bounds, common = column["bounds"] or [], column["common"] or []
    return {"low": min(map(int, bounds[:1] + common)), "buckets": buckets}


# ---- the catalogue


def column_entry(column, rows, table, version):
    entry = {"name": column["name"], "ndv": distinct_values(column, rows, f"column {table}.{column['name']}")}
    known = histogram(column, rows) if version == 2 and column["base"] in INTEGERS else None
    return {**entry, "histogram": known} if known else entry


def placing(name, names, asked):
    """Where a table lies."""
    if name in asked.hashed:
        return asked.hashed[name]
    if name not in asked.replicate:
        return "random"
    if asked.version == 2:
        return "replicated"
    tell(f"table {name} lies at random: version 1 has no table with a copy on each segment")
    return "random"


def table_entry(table, columns, indexes, asked):
    """A table's part of the catalogue, or None where it has no column."""
    name, rows = table["name"], min(round(table["rows"]), MOST)
    kept = expressible(columns, column_fault, f"column {name}.", MOST_COLUMNS)
    if not kept:
        tell(f"table {name} is left out: it has no column")
        return None
    names = {column["number"]: column["name"] for column in kept}
    lists = expressible(indexes, lambda index: index_fault(index, names), f"table {name}: index ", MOST_INDEXES)
    entry = {"name": name, "rows": rows, "distribution": placing(name, names.values(), asked)}
    if lists:
        entry["indexes"] = [[names[column] for column in index["columns"]] for index in lists]
    return {**entry, "columns": [column_entry(column, rows, name, asked.version) for column in kept]}


def of_table(things, table):
    return [thing for thing in things if thing["table"] == table["oid"]]


def catalogue(asked):
    tables, columns, indexes = (rows_of(select, asked.schema, asked.psql) for select in (TABLES, COLUMNS, INDEXES))
    kept = expressible(tables, table_fault, "table ", MOST_TABLES)
    entries = [table_entry(table, of_table(columns, table), of_table(indexes, table), asked) for table in kept]
    return {"version": asked.version, "segments": asked.segments, "tables": [it for it in entries if it]}


def check_placing(asked, tables):
    """Ends where an option names what isn't in the catalogue."""
    columns = {table["name"]: [column["name"] for column in table["columns"]] for table in tables}
    for name in [*asked.hashed, *asked.replicate]:
        if name not in columns:
            sys.exit(f"from_postgres: the catalogue has no table {name} to place")
    for name, hashed in asked.hashed.items():
        if not 1 <= len(hashed) <= LONGEST_LIST or len(set(hashed)) < len(hashed) or set(hashed) - set(columns[name]):
            sys.exit(f"from_postgres: {','.join(hashed)} is no list of 1 to {LONGEST_LIST} columns of {name}")
        if name in asked.replicate:
            sys.exit(f"from_postgres: {name} can't both lie by a hash and be replicated")


def text_of(whole):
    """JSON with a line for each column, in two spaces a level."""
    parts = []
    for table in whole["tables"]:
        head = [f'      {json.dumps(key)}: {json.dumps(table[key])}' for key in table if key != "columns"]
        columns = ",\n".join(f"        {json.dumps(column)}" for column in table["columns"])
        parts.append("    {\n" + ",\n".join(head) + ',\n      "columns": [\n' + columns + "\n      ]\n    }")
    head = f'{{\n  "version": {whole["version"]},\n  "segments": {whole["segments"]},\n  "tables": [\n'
    return head + ",\n".join(parts) + "\n  ]\n}\n"


def table_and_columns(word):
    name, equals, columns = word.partition("=")
    if not equals:
        raise argparse.ArgumentTypeError("TABLE=COLUMN,COLUMN is wanted")
    return name, columns.split(",")


def options():
    words = argparse.ArgumentParser(description="writes the catalogue of a live PostgreSQL database",
                                    epilog="What stands behind -- goes to psql, as: -- -h HOST -d DATABASE")
    words.add_argument("--segments", type=int, required=True, help=f"1 to {MOST_SEGMENTS}")
    words.add_argument("--schema", default="public", help="public, where it isn't given")
    words.add_argument("--hash", dest="hashed", type=table_and_columns, action="append", default=[],
                       metavar="TABLE=COLUMN,..", help="the table's rows lie by the hash of these columns")
    words.add_argument("--replicate", action="append", default=[], metavar="TABLE",
                       help="each segment has a copy of the table (not in version 1)")
    words.add_argument("--version", type=int, choices=[1, 2], default=2,
                       help="of the catalogue: 2, with copies and histograms, or 1")
    words.add_argument("psql", nargs="*", help=argparse.SUPPRESS)
    asked = words.parse_args()
    asked.hashed = dict(asked.hashed)
    if not 1 <= asked.segments <= MOST_SEGMENTS:
        words.error(f"segments are 1 to {MOST_SEGMENTS}")
    return asked


def main():
    asked = options()
    whole = catalogue(asked)
    check_placing(asked, whole["tables"])
    text = text_of(whole)
    if len(text) > MOST_BYTES:
        tell(f"the catalogue has more than {MOST_BYTES} bytes: the program will refuse it")
    sys.stdout.write(text)


if __name__ == "__main__":
    main()
