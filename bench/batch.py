#!/usr/bin/env python3
"""Times a batch of queries of the star schema against as many calls of `plan`.

The list has the twelve queries of examples/star_schema again and again, their numbers drawn anew. Each line of the
batch has to have the status and the text of the call of `plan` for it, and the batches of all numbers of workers the
same bytes; where one differs, this says so and ends with status 1.

Usage: bench/batch.py [--lines 1000] [--runs 3] [--workers 1,2,4,8,64] [--program PROGRAM]
"""

import argparse
import os
import random
import re
import subprocess
import sys
import tempfile
import time

TOP = os.path.dirname(os.path.dirname(os.path.abspath(__file__)))
SCHEMA = os.path.join(TOP, "examples", "star_schema")
CATALOG = os.path.join(SCHEMA, "catalog.json")
# 1,000 lines have at most 67,108 entries each
CAPACITY = ["--capacity", "65536"]


def drawn_lines(count):
    """So many queries, the schema's own with other numbers."""
    draw = random.Random(1)
    with open(os.path.join(SCHEMA, "all_queries.txt")) as file:
        queries = file.read().splitlines()
    return [re.sub(r"\b\d+\b", lambda number: str(draw.randint(1, 2 * int(number[0]))), queries[i % len(queries)])
            for i in range(count)]


def run(words):
    """What a run printed, and how many seconds it took."""
    began = time.perf_counter()
    done = subprocess.run(words, stdout=subprocess.PIPE, check=False)
    return done.returncode, done.stdout, time.perf_counter() - began


def planned(program, lines, folder):
    """What a batch of the lines prints, made of calls of `plan`, and their seconds."""
    text, seconds = b"batch queries=%d\n" % len(lines), 0.0
    for number, line in enumerate(lines):
        name = os.path.join(folder, "query.sql")
        with open(name, "w") as file:
            file.write(line)
        status, said, took = run([program, "plan", CATALOG, name, *CAPACITY])
        text += b"query %d status %d\n" % (number, status) + said
        seconds += took
    return text, seconds


def main():
    options = argparse.ArgumentParser(description="times a batch against calls of plan")
    options.add_argument("--lines", type=int, default=1000)
    options.add_argument("--runs", type=int, default=3, help="of which the fastest counts")
    options.add_argument("--workers", default="1,2,4,8,64")
    options.add_argument("--program", default=os.path.join(TOP, "crates", "orca", "out", "orca"))
    asked = options.parse_args()
    lines = drawn_lines(asked.lines)
    with tempfile.TemporaryDirectory() as folder:
        name = os.path.join(folder, "list.txt")
        with open(name, "w") as file:
            file.writelines(f"{line}\n" for line in lines)
        wanted, seconds = planned(asked.program, lines, folder)
        print(f"{len(lines)} calls of plan: {seconds * 1000:.0f} ms")
        alike = True
        for workers in asked.workers.split(","):
            words = [asked.program, "batch", CATALOG, name, "--workers", workers, *CAPACITY]
            runs = [run(words) for _ in range(asked.runs)]
            alike = alike and all((status, text) == (0, wanted) for status, text, _ in runs)
            print(f"batch by {workers} workers: {min(took for _, _, took in runs) * 1000:.0f} ms")
    print("each line as planned alone" if alike else "a batch differs from the calls of plan")
    return 0 if alike else 1


if __name__ == "__main__":
    sys.exit(main())
