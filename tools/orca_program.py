"""Runs the program, for the tools that ask it for plans."""

import os
import re
import subprocess
import sys

TOP = os.path.dirname(os.path.dirname(os.path.abspath(__file__)))
USUAL = os.path.join(TOP, "orca")
BUILT = os.path.join(TOP, "crates", "orca", "out", "orca")

PLANNED, NO_PLAN, USAGE, QUERY_REFUSED = 0, 1, 2, 3


class NoAnswer(Exception):
    """The program, or a file, that is asked for can't be had; the message says why."""


def run(program, words):
    """The status of a run, and what it printed."""
    try:
        done = subprocess.run([program, *words], stdout=subprocess.PIPE, text=True, errors="replace")
    except OSError as fault:
        raise NoAnswer(f"the program {program} can't be run: {fault.strerror}") from fault
    return done.returncode, done.stdout


def bytes_of(name):
    """What a file holds."""
    try:
        with open(name, "rb") as file:
            return file.read()
    except OSError as fault:
        raise NoAnswer(f"{name} can't be read: {fault.strerror}") from fault


def text_of_file(name):
    """The text of a file, in which a byte that isn't ASCII stands for itself."""
    return bytes_of(name).decode("latin-1")


def plan_options(options):
    """Adds the program's options that say which plan is asked for, and how it is searched for."""
    options.add_argument("--root", choices=["one", "spread"], help="where the result is asked for")
    options.add_argument("--off", metavar="RULE+RULE", help="plan without these rules")
    options.add_argument("--workers", metavar="N", help="by how many workers the program searches")
    options.add_argument("--capacity", metavar="N", help="for how many members and goals the program has room")
    options.add_argument("--program", default=USUAL, help="the program that plans, ./orca where none is named")


def plan_words(asked, *more_off):
    """The words for the program behind the two names, with more rules off."""
    off = "+".join(([asked.off] if asked.off else []) + list(more_off))
    options = {"--root": asked.root, "--off": off, "--workers": asked.workers, "--capacity": asked.capacity}
    return [word for option, value in options.items() if value for word in (option, value)]


def planned_text(asked):
    """What the program prints of the plan that is asked for; where it makes none, what it says is shown and decides."""
    status, text = run(asked.program, ["plan", *asked.names, *plan_words(asked)])
    if status == PLANNED:
        return text
    line = text.strip() or f"{asked.program} ended with status {status}"
    print(refusal_text(line, asked.names[1]) if status == QUERY_REFUSED else line)
    sys.exit(status)


def refusal_text(line, name):
    """The line by which a query is refused, and the line of the query with a mark under the place that it tells."""
    told = re.fullmatch(r".* at (\d+)", line)
    if told is None:
        return line
    text = re.sub(r"[^\t\n -~]", "?", text_of_file(name).replace("\r\n", " \n"))
    place = min(int(told[1]), len(text.rstrip()))
    begin = text.rfind("\n", 0, place) + 1
    before, row = text[begin:place], text.count("\n", 0, begin) + 1
    shown = text[begin:].split("\n")[0].rstrip()
    mark = re.sub(r"[^\t]", " ", before) + "^"
    return f"{line}\n{name}, line {row}, column {len(before) + 1}\n{shown}\n{mark}"
