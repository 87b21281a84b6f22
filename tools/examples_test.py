#!/usr/bin/env python3
"""Tests that the examples are as their pages say: the status of each command of examples/README.md, the dump that is
stored, and each figure in the tables of examples/*/README.md. It needs the built program (ORCA_PROGRAM names another).

Usage: tools/examples_test.py
"""
import re
import shlex
import subprocess
import sys
from pathlib import Path

from orca_program import TOP, run
from run_tests import PROGRAM, run_tests

EXAMPLES = Path(TOP) / "examples"
COMMAND = re.compile(r"^\| `((?:\./orca|tools/)[^`|]*)` \| (.*) \|$", re.M)
STATUS = re.compile(r"status (\d+)")
FIRST_NODE = re.compile(r"cost (\d+)\noutput .*\n\S.* rows=(\d+) cost=\d+\n")

# which catalogue and which options the columns of a table are about, and whether their figures are rows or costs
COLUMNS = {
    "Rows": ("catalog.json", [], "rows"),
    "Cost": ("catalog.json", [], "cost"),
    "Cost under `--root spread`": ("catalog.json", ["--root", "spread"], "cost"),
    "Rows at scale 1": ("catalog_scale_1.json", [], "rows"),
    "Cost at scale 1": ("catalog_scale_1.json", [], "cost"),
}


def commands():
    """The commands of the page without pipes, each with the status that its row names, or 0."""
    for command, said in COMMAND.findall((EXAMPLES / "README.md").read_text()):
        status = STATUS.search(said)
        yield command, int(status.group(1)) if status else 0


def words_of(command):
    words = shlex.split(command)
    return [PROGRAM] + words[1:] if words[0] == "./orca" else [sys.executable] + words + ["--program", PROGRAM]


def cells_of(line):
    return [cell.strip() for cell in line.strip("|").split("|")]


def figures(page):
    """The figures of a page's tables of queries: a query, a catalogue, options, rows or cost, and the figure."""
    heads, version = [], "catalog.json"
    for line in page.read_text().split("\n"):
        if line.startswith("## "):
            version = "catalog_version_2.json" if "version 2" in line else "catalog.json"
        if line.startswith("| Query |"):
            heads = cells_of(line)
        elif line.startswith("| `q") or line.startswith("| `0") or line.startswith("| `1"):
            row = dict(zip(heads, cells_of(line)))
            off = ["--off", row["Off"].strip("`")] if "Off" in row else []
            for head, cell in row.items():
                if head in COLUMNS:
                    catalog, options, kind = COLUMNS[head]
                    catalog = version if catalog == "catalog.json" else catalog
                    yield row["Query"].strip("`"), catalog, options + off, kind, cell.strip("`").replace(",", "")


def figure(folder, query, catalog, options, kind):
    """What the program gives for the query: the cost of its plan, or its rows; or the line in place of a plan."""
    _, text = run(PROGRAM, ["plan", str(folder / catalog), str(folder / query), *options])
    found = FIRST_NODE.match(text)
    return text.strip() if found is None else found.group(1 if kind == "cost" else 2)


def commands_end_as_their_page_says():
    found = list(commands())
    assert len(found) > 30, found
    for command, status in found:
        done = subprocess.run(words_of(command), stdout=subprocess.PIPE, stderr=subprocess.PIPE, cwd=TOP, timeout=100)
        assert done.returncode == status, f"{command}: status {done.returncode}, and not {status}"


def a_dump_is_the_stored_one():
    words = [str(EXAMPLES / "two_tables.json"), str(EXAMPLES / "join.sql"), "--memo"]
    stored = EXAMPLES / "join.dump"
    assert run(PROGRAM, ["dump", *words]) == (0, stored.read_text())
    assert run(PROGRAM, ["replay", str(stored)]) == run(PROGRAM, ["plan", *words])


def tables_have_the_figures_of_the_program():
    count = 0
    for page in sorted(EXAMPLES.glob("*/README.md")):
        for query, catalog, options, kind, said in figures(page):
            given = figure(page.parent, query, catalog, options, kind)
            assert given == said, f"{page}: {query} {catalog} {options}: {kind} {given}, and not {said}"
            count += 1
    assert count > 100, count


if __name__ == "__main__":
    run_tests([], [commands_end_as_their_page_says, a_dump_is_the_stored_one, tables_have_the_figures_of_the_program])
