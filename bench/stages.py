#!/usr/bin/env python3
"""Times a clique of tables planned in stages by one worker, and counts the goals of each stage.

Each table has a column for each other one, and the query links each two. The goals of a stage are those that
`plan --trace` tells with the rules of the stage off: a law of orca_cli says that both search the same query.

Times are those of processors, so other work on the machine matters little.

Usage: bench/stages.py [--tables 8] [--runs 3] [--program PROGRAM]
"""

import argparse
import json
import os
import subprocess
import sys
import tempfile

TOP = os.path.dirname(os.path.dirname(os.path.abspath(__file__)))
CAPACITY = ["--capacity", "1048576"]
# the rules that are off in a stage, from the least search to the whole one
SUBSETS = ["JoinCommute+JoinAssociate", "JoinAssociate", "JoinCommute", "JoinToMerge+JoinToLoop", "all"]
# the one that stands in front of all rules
FIRST = "JoinAssociate"


def clique(tables):
    """The catalogue and the query of a clique, as bench/plans.sh has them."""
    made = [{"name": f"t{a}", "rows": 1000 * (a + 1), "distribution": "random",
             "columns": [{"name": f"c{b}", "ndv": 100 * (b + 1)} for b in range(tables)]} for a in range(tables)]
    links = [f"t{a}.c{b} = t{b}.c{a}" for a in range(tables) for b in range(a + 1, tables)]
    query = f"SELECT t0.c1 FROM {', '.join(t['name'] for t in made)} WHERE {' AND '.join(links)} ORDER BY t0.c1"
    return json.dumps({"version": 1, "segments": 4, "tables": made}), query


def run(words):
    """The lines that a run printed, and its milliseconds on processors."""
    child = subprocess.Popen(words, stdout=subprocess.PIPE, text=True)
    lines = child.stdout.read().splitlines()
    _, status, used = os.wait4(child.pid, 0)
    if os.waitstatus_to_exitcode(status) > 1:
        sys.exit(f"{' '.join(words)}: {lines}")
    return lines, 1000 * (used.ru_utime + used.ru_stime)


def timed(words, runs):
    """The lines that a run printed, and the milliseconds of the one that took least."""
    lines, times = [], []
    for _ in range(runs):
        lines, took = run(words)
        times.append(took)
    return lines, min(times)


def without(rules):
    """The option by which `plan` leaves the rules of a stage out."""
    return [] if rules == "all" else ["--off", rules]


def main():
    options = argparse.ArgumentParser(description="times stages, and counts their goals")
    options.add_argument("--tables", type=int, default=8)
    options.add_argument("--runs", type=int, default=3, help="of which the one that takes least counts")
    options.add_argument("--program", default=os.path.join(TOP, "crates", "orca", "out", "orca"))
    asked = options.parse_args()
    with tempfile.TemporaryDirectory() as folder:
        names = [os.path.join(folder, name) for name in ("catalog", "query")]
        for name, text in zip(names, clique(asked.tables)):
            with open(name, "w") as file:
                file.write(text)
        print(f"{'stages':<34} {'goals':>8} {'cost':>8} {'ms':>9}")
        costs, goals = {}, {}
        for rules in SUBSETS:
            lines, _ = run([asked.program, "plan", *names, *CAPACITY, *without(rules), "--trace"])
            costs[rules] = int(lines[0].split()[1])
            goals[rules] = next(int(line.split()[1].split("=")[1]) for line in lines if line.startswith("trace goals="))
        for stages in [*SUBSETS, *(f"{FIRST}@{threshold},all" for threshold in (costs[FIRST] + 1, costs[FIRST]))]:
            lines, took = timed([asked.program, "stages", *names, stages, *CAPACITY], asked.runs)
            ran = [stage.split("@")[0] for stage in stages.split(",")][:int(lines[0].split("=")[1])]
            cost = next(line for line in lines if line.startswith("cost ")).split()[1]
            print(f"{stages:<34} {sum(goals[rules] for rules in ran):>8} {cost:>8} {took:>9.1f}")


if __name__ == "__main__":
    main()
