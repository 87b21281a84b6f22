#!/usr/bin/env python3
"""Runs the program on catalogues, queries and words that were changed at random, and tells where it answers badly.

Each case takes a catalogue and a query, of the examples or of compare.py's random ones, and the words of a command line,
and changes one or two of them: bytes are flipped, cut out, doubled or put in from another text, and tokens or words
exchanged. Some cases change the words of `orca gen`. The program is run with one worker and with four. Both have to end
in time with the same status and the same bytes, up to the lines by worker, the status has to be one of the table's, and
the text of its form, with sections that have as many lines of each kind as their first lines count. Nothing else is
known of the answer. Most cases name a small capacity, which makes a run short.

Usage: tools/mutate.py [--cases N] [--seed N] [--jobs N] [--program PROGRAM]
"""

import argparse
import glob
import multiprocessing
import os
import random
import re
import signal
import subprocess
import sys
import tempfile
import time
from collections import Counter
from contextlib import ExitStack

from compare import PARTS, random_query

USAGE = re.compile(rb"usage: orca plan [^\n]*\n")
NODE = rb" *[A-Za-z]+(\([^\n]*\))? rows=\d+ cost=\d+\n"
GROUP = rb"(?:(?:Get|Filter|Join)\([^\n]*\)|Partial|Agg)"
MEMBER = rb"[A-Z][A-Za-z]*\([^\n]*\)"
REQUEST = rb" \[(?:One|Spread|Copies|Hashed\([^\n]*\))(?:; [^\n]*)?\]"
GOAL = (rb"(?:(?:Exp|Imp) " + GROUP + rb"|(?:ExpE|ImpE) " + MEMBER + rb"|Xf [A-Z][A-Za-z]* " + MEMBER
        + rb"|Opt " + GROUP + REQUEST + rb"|OptE " + MEMBER + REQUEST + rb")\n")
MEMO = rb"(?P<memo>memo groups=\d+ members=\d+\n(?:group " + GROUP + rb" rows=\d+\n(?:  " + MEMBER + rb"\n)+)+)?"
TRACE = rb"(?P<trace>trace goals=\d+(?: [a-z]+=\d+){7}\n(?:" + GOAL + rb"(?:  " + GOAL + rb")*)+)?"
BY_WORKER = rb"(?P<by_worker>by-worker\n(?:\d+ " + GOAL + rb")+)?"
SECTIONS = MEMO + TRACE + BY_WORKER
MADE = rb"gen number=\d+ tables=\d shape=(chain|star|clique)\n"
FIRST_LINES = rb"cost \d+\nmemo groups=\d+ members=\d+\ntrace goals=\d+( [a-z]+=\d+)+\n"
FORMS = {
    0: re.compile(rb"cost \d+\noutput [^\n]+\n(" + NODE + rb")+" + SECTIONS + rb"|" + MADE + FIRST_LINES),
    1: re.compile(rb"no plan\n" + SECTIONS),
    2: USAGE,
    3: re.compile(rb"query refused: [A-Za-z ]+(: \d+| at \d+)?\n"),
    4: re.compile(rb"catalog refused: [^\n]*\n"),
    5: re.compile(rb"too many entries: capacity \d+\n"),
    6: re.compile(rb"read fault: [^\0]*\n"),
    8: re.compile(rb""),
}
TOKENS = re.compile(rb"\w+|\s+|[^\w\s]")
OPTIONS = [[b"--memo"], [b"--trace"], [b"--by-worker"], [b"--root", b"spread"], [b"--root", b"one"],
           [b"--off", b"AggToHash"], [b"--off", b"JoinCommute+JoinAssociate"], [b"--off", b"GetToScan"],
           [b"--capacity", b"64"], [b"--capacity", b"200"], [b"--capacity", b"20000"]]
OTHERS = [b"--memo", b"--root", b"--off", b"JoinCommute+", b"--capacity", b"063", b"1048577", b"--help", b"--",
          b"\xff", b"", b"plan", b"gen", b"--workers", b"--by-worker", b"0"]
SHAPES = [b"chain", b"star", b"clique"]
SECONDS = 60


def example_texts(top):
    read = lambda pattern: [open(name, "rb").read() for name in sorted(glob.glob(os.path.join(top, "examples", pattern)))]
    return read("*.json"), read("*.sql")


# ---- changes of a text


def flipped(pick, text, others):
    at = pick.randrange(len(text))
    return text[:at] + bytes([text[at] ^ (1 << pick.randrange(8))]) + text[at + 1:]


def span(pick, text):
    start = pick.randrange(len(text))
    return start, min(len(text), start + pick.choice([1, 2, 5, 20, 200]))


def cut(pick, text, others):
    start, end = span(pick, text)
    return text[:start] + text[end:]


def doubled(pick, text, others):
    start, end = span(pick, text)
    return text[:end] + text[start:end] * pick.choice([1, 1, 2, 60]) + text[end:]


def spliced(pick, text, others):
    other = pick.choice(others) or b" "
    start, end = span(pick, other)
    at = pick.randrange(len(text))
    return text[:at] + other[start:end] + text[at:]


def exchanged(pick, text, others):
    tokens = TOKENS.findall(text)
    a, b = pick.randrange(len(tokens)), pick.randrange(len(tokens))
    tokens[a], tokens[b] = tokens[b], tokens[a]
    return b"".join(tokens)


CHANGES = [flipped, cut, doubled, spliced, exchanged]


def changed(pick, text, others):
    for _ in range(pick.choice([1, 1, 2, 5])):
        if text:
            text = pick.choice(CHANGES)(pick, text, others)
    return text


# ---- changes of words


def words_changed(pick, words):
    """One word is changed, left out or put in, or two are exchanged, once or twice."""
    for _ in range(pick.choice([1, 1, 2])):
        at = pick.randrange(len(words) + 1)
        if at == len(words) or pick.random() < 0.2:
            words = words[:at] + [pick.choice(OTHERS)] + words[at:]
        elif pick.random() < 0.2:
            words = words[:at] + words[at + 1:]
        elif pick.random() < 0.2:
            other = pick.randrange(len(words))
            words = [words[{at: other, other: at}.get(n, n)] for n in range(len(words))]
        else:
            words = words[:at] + [changed(pick, words[at], words + OTHERS)] + words[at + 1:]
    return words


# ---- cases


def a_case(pick, catalogs, queries):
    """The bytes of the catalogue and of the query, and the words but for the workers."""
    if pick.random() < 0.05:
        number = str(pick.choice([pick.randrange(100000), pick.randrange(2**64)])).encode()
        words = [b"gen", number, str(pick.choice([1, 2, 3, 3, 4])).encode(), pick.choice(SHAPES)]
        return b"", b"", with_capacity(pick, words_changed(pick, words) if pick.random() < 0.7 else words)
    if pick.random() < 0.5:
        query = random_query(pick, 3, PARTS, [1])
        catalog, text, options = query.catalog().encode(), query.sql().encode(), [w.encode() for w in query.words()]
    else:
        catalog, text, options = pick.choice(catalogs), pick.choice(queries), []
    words = [b"plan", b"catalog", b"query", *options]
    what = pick.sample(["catalog", "query", "words"], pick.choice([1, 1, 2]))
    if "catalog" in what:
        catalog = changed(pick, catalog, catalogs)
    if "query" in what:
        text = changed(pick, text, queries)
    if "words" in what:
        words += [word for option in pick.sample(OPTIONS, 2) for word in option]
        if pick.random() < 0.4:
            words = words_changed(pick, words)
    return catalog, text, with_capacity(pick, words)


def with_capacity(pick, words):
    """Most cases without a capacity get a small one; the usual one has 30 MiB written before the search."""
    if b"--capacity" in words or pick.random() < 0.05:
        return words
    return words + [b"--capacity", pick.choice([b"1024", b"8192"])]


def run_both(program, folder, words):
    """The status and the bytes with one worker and with four, which run side by side; what is said on standard error
    counts as output."""
    words = [word.replace(b"\0", b"") for word in words]
    with ExitStack() as files:
        outs = [files.enter_context(open(os.path.join(folder, f"out{n}"), "w+b")) for n in range(2)]
        started = [subprocess.Popen([program, *words, b"--workers", workers], cwd=folder, stdin=subprocess.DEVNULL,
                                    stdout=out, stderr=subprocess.STDOUT) for workers, out in zip((b"1", b"4"), outs)]
        signal.alarm(SECONDS)
        try:
            statuses = [process.wait() for process in started]
        finally:
            signal.alarm(0)
            for process in started:
                process.kill()
        for out in outs:
            out.seek(0)
        return [(status, out.read()) for status, out in zip(statuses, outs)]


def too_late(*_):
    raise TimeoutError


def split_by_worker(text):
    """What stands before the lines by worker, the numbers in these, and their goals."""
    front, mark, lines = text.partition(b"\nby-worker\n")
    pairs = [line.partition(b" ") for line in lines.splitlines()]
    return front + mark, [int(number) for number, _, _ in pairs], [goal for _, _, goal in pairs]


def miscounted(sections):
    """Whether a first line counts other than what stands below it."""
    lines = {name: (text or b"").splitlines() for name, text in sections.items()}
    counts = {name: [int(number) for number in re.findall(rb"=(\d+)", text[0])] for name, text in lines.items() if text}
    below = {name: sum(line.startswith(b"  ") for line in text) for name, text in lines.items()}
    heads = {name: len(text) - 1 - below[name] for name, text in lines.items()}
    if "memo" in counts and counts["memo"] != [heads["memo"], below["memo"]]:
        return True
    if "trace" in counts and not counts["trace"][0] == sum(counts["trace"][1:]) == heads["trace"]:
        return True
    return "trace" in counts and "by_worker" in counts and heads["by_worker"] != heads["trace"]


def fault_of(one, four):
    """What is wrong with the two answers, if anything is."""
    status, text = one
    if status not in FORMS:
        return f"status {status}"
    found = FORMS[status].fullmatch(text)
    if not found:
        return f"status {status} with another text"
    if miscounted(found.groupdict()):
        return f"status {status} with a section that is miscounted"
    if status == four[0] and b"\nby-worker\n" in text:
        (front, numbers, goals), (other_front, other_numbers, other_goals) = map(split_by_worker, (text, four[1]))
        if (front, goals) != (other_front, other_goals) or any(numbers) or not all(n < 4 for n in other_numbers):
            return "other bytes with four workers, or lines by others"
    elif one != four:
        return f"status {four[0]} with four workers, or other bytes"
    return None


def try_cases(job):
    program, first, count, top = job
    catalogs, queries = example_texts(top)
    seen, faults = Counter(), []
    signal.signal(signal.SIGALRM, too_late)
    with tempfile.TemporaryDirectory() as folder:
        names = [os.path.join(folder, name) for name in ("catalog", "query")]
        for number in range(first, first + count):
            catalog, text, words = a_case(random.Random(number), catalogs, queries)
            for name, content in zip(names, (catalog, text)):
                with open(name, "wb") as file:
                    file.write(content)
            try:
                one, four = run_both(program, folder, words)
                fault = fault_of(one, four)
                seen[one[0]] += 1
            except TimeoutError:
                fault = f"no end in {SECONDS} seconds"
            if fault:
                faults.append(f"case {number}: {fault}\n{catalog!r}\n{text!r}\n{words!r}")
    return seen, faults


def main():
    top = os.path.dirname(os.path.dirname(os.path.abspath(__file__)))
    options = argparse.ArgumentParser(description="runs the program on texts and words that were changed at random")
    options.add_argument("--cases", type=int, default=10000)
    options.add_argument("--seed", type=int, default=1)
    options.add_argument("--jobs", type=int, default=os.cpu_count())
    options.add_argument("--program", default=os.path.join(top, "crates", "orca", "out", "orca"))
    asked = options.parse_args()
    began = time.time()
    piece = 100
    program = os.path.abspath(asked.program)
    jobs = [(program, first, min(piece, asked.seed + asked.cases - first), top)
            for first in range(asked.seed, asked.seed + asked.cases, piece)]
    seen, faults = Counter(), []
    with multiprocessing.Pool(asked.jobs) as pool:
        for some, wrong in pool.imap_unordered(try_cases, jobs):
            seen += some
            faults += wrong
            for fault in wrong:
                print(fault, flush=True)
    statuses = ", ".join(f"status {status}: {count}" for status, count in sorted(seen.items()))
    print(f"{asked.cases} cases from {asked.seed} on in {time.time() - began:.0f} s; {statuses}; {len(faults)} answered badly")
    sys.exit(1 if faults else 0)


if __name__ == "__main__":
    main()
