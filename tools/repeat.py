#!/usr/bin/env python3
"""Runs small queries again and again with several workers, and tells where the bytes differ from those of one worker.

Each query is planned with its memo and its trace, as many times as RUNS says for each number of workers, so that the
workers' steps fall in many orders. It prints how many runs it made, and ends with status 1 where any differs.

Usage: tools/repeat.py [--runs RUNS] [--workers 2,3,8,64] [--program PROGRAM]
"""

import argparse
import os
import subprocess
import sys

TOP = os.path.dirname(os.path.dirname(os.path.abspath(__file__)))
EXAMPLES = os.path.join(TOP, "examples")
# catalogues and queries of the examples: one table, the running example, a grouping, a grouped join
QUERIES = [("t.json", "q.sql"), ("two_tables.json", "join.sql"), ("sales.json", "per_customer.sql"),
           ("sales.json", "regions.sql")]


def printed(program, catalog, query, workers):
    words = ["plan", os.path.join(EXAMPLES, catalog), os.path.join(EXAMPLES, query), "--memo", "--trace",
             "--workers", str(workers)]
    done = subprocess.run([program, *words], capture_output=True, check=False, timeout=60)
    return done.returncode, done.stdout


def main():
    options = argparse.ArgumentParser(description="compares the bytes of many runs of one query")
    options.add_argument("--runs", type=int, default=1000)
    options.add_argument("--workers", default="2,3,8,64")
    options.add_argument("--program", default=os.path.join(TOP, "crates", "orca", "out", "orca"))
    given = options.parse_args()
    made = differ = 0
    for catalog, query in QUERIES:
        status, text = printed(given.program, catalog, query, 1)
        if status != 0:
            sys.exit(f"{query}: status {status}")
        for workers in given.workers.split(","):
            for _ in range(given.runs):
                made += 1
                if printed(given.program, catalog, query, workers) != (status, text):
                    differ += 1
                    print(f"{query}: another text with {workers} workers")
        print(f"{query}: {len(text)} bytes, {given.runs} runs each with {given.workers} workers", flush=True)
    print(f"{made} runs, {differ} differ")
    return differ > 0


if __name__ == "__main__":
    sys.exit(main())
