#!/usr/bin/env python3
"""Compares two outputs of `orca batch` over the same list of queries: which plans changed, and from which cost to which.

It prints one row for each query that ended otherwise, the worst first: queries that had a plan and have none, then by
how many times the plan costs what it did, then queries that had no plan and have one, and those without a plan that
have another status or line. What a row says has changed is one of

  plan     the steps of the plan, whatever they cost
  cost     costs or rows alone, of the same steps
  status   whether there is a plan, or why there is none

Sections behind a plan (memo, trace) aren't compared. With --list the text of each query stands behind its row.

It ends with status 0 where nothing changed, 1 where something did, and 2 where the files can't be compared.

Usage: tools/plan_diff.py BEFORE AFTER [--list LIST]
"""

import argparse
import re
import sys
from collections import namedtuple
from fractions import Fraction

HEAD = re.compile(r"batch queries=(\d+)")
QUERY = re.compile(r"query (\d+) status (\d+)")
COST = re.compile(r"cost (\d+)")
# a step of a plan, without its rows and its cost
STEP = re.compile(r"( *\S.*) rows=\d+ cost=\d+")

PLANNED = 0

# How one query ended: its status, and the lines of its plan or the line that says why there is none.
Ending = namedtuple("Ending", "status lines")
Row = namedtuple("Row", "number change before after rank")


class Unreadable(Exception):
    """What is wrong with a file."""


def lines_of(path):
    try:
        with open(path, encoding="utf-8", errors="surrogateescape", newline="\n") as file:
            return file.read().split("\n")
    except OSError as fault:
        raise Unreadable(f"{path}: {fault.strerror}") from fault


def plan_lines(lines):
    """The lines of the plan, without the sections behind it."""
    end = 2
    while end < len(lines) and STEP.fullmatch(lines[end]):
        end += 1
    return lines[:end]


def ending_of(path, status, lines):
    if status != PLANNED:
        return Ending(status, lines[:1])
    if not lines or not COST.fullmatch(lines[0]):
        raise Unreadable(f"{path}: a query with status 0 has no line `cost C`")
    return Ending(status, plan_lines(lines))


def read_batch(path):
    """How each query of the batch ended, in order."""
    lines = lines_of(path)
    if lines[-1] == "":
        lines.pop()
    head = HEAD.fullmatch(lines[0]) if lines else None
    if not head:
        raise Unreadable(f"{path}: the first line isn't `batch queries=N`")
    endings, at = [], 1
    while at < len(lines):
        query = QUERY.fullmatch(lines[at])
        if not query or int(query.group(1)) != len(endings):
            raise Unreadable(f"{path}: line {at + 1} isn't `query {len(endings)} status S`")
        at += 1
        begin = at
        while at < len(lines) and not QUERY.fullmatch(lines[at]):
            at += 1
        endings.append(ending_of(path, int(query.group(2)), lines[begin:at]))
    if len(endings) != int(head.group(1)):
        raise Unreadable(f"{path}: {len(endings)} queries stand there, and the first line says {head.group(1)}")
    return endings


def cost_of(ending):
    return int(COST.fullmatch(ending.lines[0]).group(1))


def steps_of(ending):
    """The plan without its numbers."""
    return [ending.lines[1]] + [STEP.fullmatch(line).group(1) for line in ending.lines[2:]]


def change_of(before, after):
    if before.status != PLANNED or after.status != PLANNED:
        return "status"
    return "plan" if steps_of(before) != steps_of(after) else "cost"


def rank_of(before, after):
    """Greater where it is worse: a plan that is lost, what it costs by what it did, a plan that is new, the others."""
    if before.status == PLANNED and after.status != PLANNED:
        return (3, Fraction(0))
    if before.status == PLANNED:
        return (2, factor_of(before, after))
    return (1 if after.status == PLANNED else 0, Fraction(0))


def factor_of(before, after):
    return Fraction(cost_of(after) + 1, cost_of(before) + 1)


def rows_of(befores, afters):
    rows = [Row(number, change_of(before, after), before, after, rank_of(before, after))
            for number, (before, after) in enumerate(zip(befores, afters)) if before != after]
    return sorted(rows, key=lambda row: (tuple(-part for part in row.rank), row.number))


def shown(ending):
    return str(cost_of(ending)) if ending.status == PLANNED else f"status {ending.status}"


def factor_shown(row):
    if row.change == "status" or cost_of(row.before) == 0:
        return "-"
    thousandths = 1000 * cost_of(row.after) // cost_of(row.before)
    return f"{thousandths // 1000}.{thousandths % 1000:03}"


def cells_of(row):
    return [str(row.number), row.change, shown(row.before), shown(row.after), factor_shown(row)]


def table(rows, texts):
    lines = [["query", "changed", "before", "after", "times"]] + [cells_of(row) for row in rows]
    widths = [max(len(line[place]) for line in lines) for place in range(5)]
    for line, row in zip(lines, [None] + rows):
        text = "  ".join(cell.ljust(width) for cell, width in zip(line, widths))
        behind = texts[row.number] if texts and row else ""
        yield f"{text}  {behind}".rstrip()


def summary(befores, rows):
    counts = [f"{name} {sum(row.change == name for row in rows)}" for name in ("plan", "cost", "status")]
    return f"queries {len(befores)}: same {len(befores) - len(rows)}, " + ", ".join(counts)


def texts_of(path, count):
    """The text of each query: the lines of the list, of which the last newline may be absent."""
    lines = lines_of(path)
    if lines[-1] == "":
        lines.pop()
    if len(lines) != count:
        raise Unreadable(f"{path}: {len(lines)} lines for {count} queries")
    return lines


def compare(options):
    befores, afters = read_batch(options.before), read_batch(options.after)
    if len(befores) != len(afters):
        raise Unreadable(f"{len(befores)} queries before, and {len(afters)} after")
    texts = texts_of(options.list, len(befores)) if options.list else None
    rows = rows_of(befores, afters)
    if rows:
        for line in table(rows, texts):
            print(line)
    print(summary(befores, rows))
    return 1 if rows else 0


def main():
    options = argparse.ArgumentParser(description="compares the plans of two batches")
    options.add_argument("before")
    options.add_argument("after")
    options.add_argument("--list", help="the list of the queries, whose lines stand behind the rows")
    sys.stdout.reconfigure(errors="surrogateescape")
    try:
        sys.exit(compare(options.parse_args()))
    except Unreadable as fault:
        print(f"plan_diff: {fault}", file=sys.stderr)
        sys.exit(2)


if __name__ == "__main__":
    main()
