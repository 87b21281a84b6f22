#!/usr/bin/env python3
"""Compares what the program answers to commands with what a plain program that is written on its own answers.

Each case has random catalogues, queries and words of one kind, and both programs are given the same words over the same
files (plain_commands.py). They have to end with the same status and the same bytes. The kinds are

  plan    one query, also one that is refused, with its memo and its trace
  batch   a list of queries over one catalogue, with refused, empty and too large ones between them
  stages  one query with a random list of stages
  check   the plan of a query, which costs what it says, and --changes changes of its text: lines dropped, doubled,
          moved, indented, numbers and names exchanged, nodes taken out and put in
  dump    the dump of a query, its replay, and --changes changes of its text
  words   words of all commands, changed at random, over files that aren't there

The program is run with each number of workers that --workers names, where the command takes workers, and has to end
within two minutes. What the program answers besides is counted. Where it doesn't know a command of the kind, that is
said, and the status is 2; where it answers otherwise than the plain program, 1. With --alone it isn't run.

Usage: tools/compare_commands.py KIND [--cases N] [--changes N] [--seed N] [--tables N] [--versions N,N] [--workers N,N]
       [--jobs N] [--program PROGRAM] [--alone]
"""

import argparse
import collections
import multiprocessing
import os
import random
import re
import subprocess
import sys
import tempfile

from changed_texts import changed_catalog, changed_dump, changed_plan, changed_query
from compare import PARTS, SECONDS, random_query, random_query_over, random_tables
from mutate import words_changed
from orca_program import BUILT
from plain_commands import COMMANDS, USAGE, answer
from plain_plans import RULES, SPREAD, Query, least_by_requests, text_of
from plain_words import USAGES, NoCommand, read_words, usage_line

# how many cases are tried, how many changes of each text, and by how many workers
Kind = collections.namedtuple("Kind", "commands cases changes workers make")
# what is asked: words, the files that they name, and whether workers may be named
Run = collections.namedtuple("Run", "words files by_workers")
# what came of a case: how many runs it has, how often each answer came, and what differs
Tried = collections.namedtuple("Tried", "runs answers differences")

FLAGS = ["--memo", "--trace", "--by-worker"]
CAPACITIES = [[], [], ["--capacity", "64"], ["--capacity", "150"], ["--capacity", "600"]]
# the names that words have for files
CATALOG, QUERY, LIST, PLAN, DUMP = "c.json", "q.sql", "l.sql", "plan", "dump"


# ---- what the cases have in common


def some_query(pick, asked):
    return random_query(pick, asked.tables, PARTS, asked.versions)


def files_of(query):
    return {CATALOG: query.catalog().encode(), QUERY: query.sql().encode()}


def sections(pick):
    return [word for word in ("--memo", "--trace") if pick.random() < 0.3]


def shuffled(pick, words, options):
    """The words with the options, each with its value, before, between or behind the positional ones."""
    command, *rest = words
    while options:
        length = 1 if options[0] in FLAGS else 2
        is_free = lambda at: at == 0 or not rest[at - 1].startswith("--") or rest[at - 1] in FLAGS
        at = pick.choice([at for at in range(len(rest) + 1) if is_free(at)])
        rest, options = rest[:at] + options[:length] + rest[at:], options[length:]
    return [command, *rest]


# ---- plan and batch


def plan_runs(pick, asked):
    query = some_query(pick, asked)
    files = files_of(query)
    if pick.random() < 0.5:
        files[QUERY] = changed_query(pick, files[QUERY])
    if pick.random() < 0.4:
        files[CATALOG] = changed_catalog(pick, files[CATALOG])
    options = query.words() + pick.choice(CAPACITIES) + sections(pick)
    yield Run(shuffled(pick, ["plan", CATALOG, QUERY], options), files, True)


def batch_runs(pick, asked):
    tables, version = random_tables(pick, asked.tables, PARTS, asked.versions)
    catalog = Query(pick.choice([1, 4, 7]), tables, [], [], version=version).catalog().encode()
    lines = [random_line(pick, tables, version) for _ in range(pick.choice([0, 1, 2, 3, 5, 8, 13]))]
    listed = b"\n".join(lines) + pick.choice([b"", b"\n", b"\n"])
    capacity = pick.choice(CAPACITIES)
    if pick.random() < 0.03:
        listed, capacity = listed + b"\n" * pick.choice([990, 1000, 1001, 1100]), pick.choice(CAPACITIES[2:])
    files = {CATALOG: changed_catalog(pick, catalog) if pick.random() < 0.05 else catalog, LIST: listed}
    options = some_query(pick, asked).words() + capacity + sections(pick)
    yield Run(shuffled(pick, ["batch", CATALOG, LIST], options), files, True)


def random_line(pick, tables, version):
    """A line of a list: a query over some of the tables, perhaps one that is refused; or nothing."""
    if pick.random() < 0.08:
        return b""
    some = tables[: pick.randint(1, len(tables))]
    text = random_query_over(pick, some, PARTS, version).sql().encode()
    return (changed_query(pick, text) if pick.random() < 0.4 else text).replace(b"\n", b" ")


# ---- stages


def stages_runs(pick, asked):
    query = some_query(pick, asked)
    least = least_by_requests(query)
    cost = 1000 if least is None else least.cost
    stages = ",".join(random_stage(pick, cost) for _ in range(pick.choice([1, 1, 2, 2, 3, 4, 8])))
    options = ["--root", "spread"] if query.root == SPREAD else []
    words = shuffled(pick, ["stages", CATALOG, QUERY, stages], options + pick.choice(CAPACITIES))
    yield Run(words, files_of(query), True)


def random_stage(pick, cost):
    """A stage whose threshold, where it has one, is near the cost of a plan."""
    rules = pick.sample(RULES[1:], pick.choice([1, 1, 2, 3, 5]))
    thresholds = [1, cost, cost + 1, cost + 1, 2 * cost + 1, 100 * cost, 10**17]
    limit = f"@{min(pick.choice(thresholds), 10**17)}" if pick.random() < 0.6 else ""
    return ("all" if pick.random() < 0.3 else "+".join(rules)) + limit


# ---- check


def check_runs(pick, asked):
    query = some_query(pick, asked)
    printed = printed_plan(pick, query)
    if printed is None:
        return
    if pick.random() < 0.3:
        query = with_off(query, query.off | set(pick.sample(RULES[1:], pick.choice([1, 2, 4]))))
    words = shuffled(pick, ["check", CATALOG, QUERY, PLAN], query.words())
    for number in range(asked.changes + 1):
        text = changed_plan(pick, query, printed) if number else printed
        yield Run(words, {**files_of(query), PLAN: text.encode("latin-1")}, False)


def printed_plan(pick, query):
    """The text of a plan of the query: its least one, or the least one without some more rules; None where none is."""
    if pick.random() < 0.5:
        other = with_off(query, query.off | set(pick.sample(RULES[1:], pick.choice([1, 2, 3]))))
        least = least_by_requests(other)
        if least is not None:
            return text_of(other, least)
    least = least_by_requests(query)
    return None if least is None else text_of(query, least)


def with_off(query, off):
    """The query with these rules off."""
    return Query(query.segments, query.tables, query.preds, query.output, query.order, query.group_by, query.root, off,
                 query.version)


# ---- dump and replay


def dump_runs(pick, asked):
    query = some_query(pick, asked)
    files = files_of(query)
    if pick.random() < 0.1:
        files[QUERY] = changed_query(pick, files[QUERY])
    words = shuffled(pick, ["dump", CATALOG, QUERY], query.words() + pick.choice(CAPACITIES) + sections(pick))
    yield Run(words, files, False)
    status, text = answer(words, files)
    if status:
        return
    yield Run(["replay", DUMP], {DUMP: text.encode()}, True)
    if answer(["replay", DUMP], {DUMP: text.encode()}) != answer(["plan", *words[1:]], files):
        raise AssertionError(f"the plain program replays another plan\n{text}")
    for _ in range(asked.changes):
        yield Run(["replay", DUMP], {DUMP: changed_dump(pick, text.encode())}, False)


# ---- words

STAGES = [
    "all", "all,all", "all@1", "JoinCommute+SplitAgg@100,all@7,GetToScan", "GetToScan@100000000000000000", "all@0",
    "all@100000000000000001", "all@", "all,", "ExpandNAry", "all+GetToScan", "GetToScan+GetToScan", "all@07",
    ",".join(["all"] * 8), ",".join(["all"] * 9), "ALL",
]
VALUES = {
    "--workers": ["1", "2", "64", "65", "0", "04"],
    "--capacity": ["64", "131072", "131073", "1048576", "63", "1048577", "064"],
    "--root": ["one", "spread", "two"],
    "--off": ["GetToScan", "SplitAgg+JoinCommute", "ExpandNAry", "GetToScan+GetToScan", "GetToScan+"],
}


def words_runs(pick, asked):
    name = pick.choice([name for name in COMMANDS if name in asked.known])
    names = re.sub(r"\[.*", "", USAGES[name]).lower().replace("stages", pick.choice(STAGES)).split()
    words = shuffled(pick, [name, *names], some_options(pick, name))
    if pick.random() < 0.4:
        changed_words = words_changed(pick, [word.encode() for word in words])
        words = [word.replace(b"\0", b"").decode(errors="replace") for word in changed_words]
    yield Run(words, {}, False)


def some_options(pick, name):
    """Some of the command's options, mostly with the first of their values, and sometimes one of another command."""
    options = []
    for option in [*VALUES, *FLAGS]:
        if pick.random() < (0.4 if option in USAGES[name] else 0.03):
            options.append(option)
            if option in VALUES:
                options.append(pick.choice(VALUES[option][:2] if pick.random() < 0.7 else VALUES[option]))
    return options


KINDS = {
    "plan": Kind(["plan"], 2000, 0, "1,4", plan_runs),
    "batch": Kind(["batch"], 500, 0, "1,2,8,64", batch_runs),
    "stages": Kind(["stages"], 2000, 0, "1,4", stages_runs),
    "check": Kind(["check"], 1000, 20, "", check_runs),
    "dump": Kind(["dump", "replay"], 1000, 10, "1,8", dump_runs),
    "words": Kind([], 5000, 0, "", words_runs),
}


# ---- a run of both programs


def expected(run, known):
    """What the plain program answers; None where it knows no answer."""
    try:
        if read_words(run.words).name not in COMMANDS:
            return None
    except NoCommand:
        return USAGE, usage_line(known).encode()
    status, text = answer(run.words, run.files)
    return status, text.encode()


def answered(program, folder, words):
    """What the program answers, or that it doesn't end in time."""
    try:
        done = subprocess.run([program, *words], cwd=folder, stdout=subprocess.PIPE, timeout=SECONDS)
    except subprocess.TimeoutExpired:
        return None, f"no end in {SECONDS} seconds".encode()
    return done.returncode, done.stdout


def commands_of(program):
    """The commands that the program knows, as its usage line tells them."""
    try:
        status, text = answered(program, None, [])
    except OSError as fault:
        sys.exit(f"the program {program} can't be run: {fault.strerror}")
    known = re.findall(r"orca ([a-z]+) ", text.decode("latin-1"))
    if status != USAGE or not known:
        sys.exit(f"the program {program} doesn't print its usage without words")
    return known


def kinds_of_answer(status, text):
    """The status, with the cause where the text is one line; and the statuses of a batch's queries."""
    yield from [f"a query with status {found.decode()}" for found in re.findall(rb"\nquery \d+ status (\d+)", text)]
    cause = ""
    if status != USAGE and text.count(b"\n") == 1:
        cause = " " + re.sub("(?<=fault):.*|[0-9].*| at .*", "", text.decode()).strip()
    yield f"status {status}{cause}"


def try_case(job):
    """Makes the runs of a case, and has both programs answer them."""
    number, asked = job
    pick, runs, answers, differences = random.Random(f"{asked.kind} {number}"), 0, collections.Counter(), []
    with tempfile.TemporaryDirectory() as folder:
        for run in KINDS[asked.kind].make(pick, asked):
            wanted = expected(run, asked.known)
            if wanted is None:
                continue
            runs += 1
            answers.update(kinds_of_answer(*wanted))
            if not asked.alone:
                differences += differing(asked, number, folder, run, wanted)
    return Tried(runs, answers, differences)


def differing(asked, number, folder, run, wanted):
    """How the program answers otherwise."""
    for name, content in run.files.items():
        with open(os.path.join(folder, name), "wb") as file:
            file.write(content)
    for workers in asked.workers if run.by_workers else [None]:
        words = run.words + (["--workers", workers] if workers else [])
        got = answered(asked.program, folder, words)
        if got != wanted:
            files = "\n".join(f"{name} {content!r}" for name, content in run.files.items())
            yield f"case {number}: {' '.join(words)}\n{files}\nexpected {told(*wanted)}printed {told(*got)}"


def told(status, text):
    return f"status {status}\n{text.decode('latin-1')}"


# ---- the command


def options_of(words):
    options = argparse.ArgumentParser(description="compares the answers of commands with those of a plain program")
    options.add_argument("kind", choices=KINDS)
    options.add_argument("--cases", type=int, help="how many cases")
    options.add_argument("--changes", type=int, help="how many changes of each printed plan or dump")
    options.add_argument("--seed", type=int, default=1, help="the number of the first case")
    options.add_argument("--tables", type=int, default=3, help="the most tables of a query")
    options.add_argument("--versions", default="1,2", help="the versions of catalogues, of 1 and 2")
    options.add_argument("--workers", help="with how many workers the program is run")
    options.add_argument("--jobs", type=int, default=1, help="how many cases are tried side by side")
    options.add_argument("--alone", action="store_true", help="only have the plain program answer")
    options.add_argument("--program", default=BUILT)
    asked = options.parse_args(words)
    kind = KINDS[asked.kind]
    asked.cases = kind.cases if asked.cases is None else asked.cases
    asked.changes = kind.changes if asked.changes is None else asked.changes
    asked.workers = (asked.workers or kind.workers).split(",")
    asked.versions = [int(version) for version in asked.versions.split(",")]
    asked.program = os.path.abspath(asked.program)
    return asked


def main():
    asked = options_of(sys.argv[1:])
    asked.known = list(USAGES) if asked.alone else commands_of(asked.program)
    unknown = [name for name in KINDS[asked.kind].commands or USAGES if name not in asked.known]
    for name in unknown:
        print(f"the program doesn't know the command {name}")
    if unknown and asked.kind != "words":
        sys.exit(2)
    runs, answers, differ = 0, collections.Counter(), 0
    jobs = [(number, asked) for number in range(asked.seed, asked.seed + asked.cases)]
    with multiprocessing.Pool(asked.jobs) as pool:
        for tried in pool.imap(try_case, jobs):
            runs += tried.runs
            answers += tried.answers
            differ += len(tried.differences)
            for difference in tried.differences:
                print(difference, flush=True)
    for kind, count in sorted(answers.items()):
        print(f"{count:8,}  {kind}")
    print(f"{asked.cases} cases, {runs} runs of the plain program, {differ} answers differ")
    sys.exit(1 if differ or not runs else 0)


if __name__ == "__main__":
    main()
