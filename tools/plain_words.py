"""What the words of a command line ask for, as a part of the plain program (plain_plans.py)."""

import collections
import re

from plain_plans import ONE, RULES, SPREAD

# the words behind each command's name, and behind them its options
USAGES = {
    "plan": "CATALOG QUERY [--workers N] [--capacity N] [--root one|spread] [--off RULE+RULE] [--memo] [--trace]"
    " [--by-worker]",
    "gen": "NUMBER TABLES SHAPE [--workers N] [--capacity N]",
    "stages": "CATALOG QUERY STAGES [--workers N] [--capacity N] [--root one|spread]",
    "check": "CATALOG QUERY PLAN [--root one|spread] [--off RULE+RULE]",
    "dump": "CATALOG QUERY [--capacity N] [--root one|spread] [--off RULE+RULE] [--memo] [--trace]",
    "replay": "DUMP [--workers N]",
    "batch": "CATALOG LIST [--workers N] [--capacity N] [--root one|spread] [--off RULE+RULE] [--memo] [--trace]",
}

# what an option is where it isn't given
USUAL = {
    "workers": 1, "capacity": 131072, "root": ONE, "off": [], "memo": False, "trace": False, "by_worker": False,
}
MOST_STAGES, MOST_THRESHOLD = 8, 10**17
MOST_BATCH_ENTRIES = 8388608

# a command: its name, what its words say by what the usage calls them, and its options by their names
Command = collections.namedtuple("Command", "name words options")
Stage = collections.namedtuple("Stage", "off threshold")


class NoCommand(Exception):
    """Words that ask for nothing."""


def usage_line(names=USAGES):
    """The usage line of a program with these commands."""
    return "usage: " + " | ".join(f"orca {name} {text}" for name, text in USAGES.items() if name in names) + "\n"


def read_words(words):
    """The command that the words ask for."""
    if not words or words[0] not in USAGES:
        raise NoCommand
    usage = re.sub(r"\[.*\]", "", USAGES[words[0]]).split()
    takes_value = {option: bool(value) for option, value in re.findall(r"\[(--[a-z-]+)( [^]]*)?\]", USAGES[words[0]])}
    options, given, rest = {}, [], list(words[1:])
    while rest:
        word = rest.pop(0)
        name = word[2:].replace("-", "_")
        if word not in takes_value:
            given.append(word)
        elif name in options or takes_value[word] and not rest:
            raise NoCommand
        else:
            options[name] = OPTIONS[name](rest.pop(0)) if takes_value[word] else True
    if len(given) != len(usage):
        raise NoCommand
    command = Command(words[0], {name: WORDS.get(name, file_name)(word) for name, word in zip(usage, given)},
                      {**USUAL, **options})
    if command.name == "batch" and command.options["workers"] * command.options["capacity"] > MOST_BATCH_ENTRIES:
        raise NoCommand
    return command


# ---- what a word says


def file_name(word):
    if not word or word.startswith("-"):
        raise NoCommand
    return word


def number(word, least, most):
    """A number in decimal digits without a zero in front."""
    if not re.fullmatch("0|[1-9][0-9]{0,19}", word) or not least <= int(word) <= most:
        raise NoCommand
    return int(word)


def one_of(word, meanings):
    if word not in meanings:
        raise NoCommand
    return meanings[word]


def rules(word):
    """Rules that can be off, each at most once."""
    names = word.split("+")
    if not set(names) <= set(RULES[1:]) or len(set(names)) < len(names):
        raise NoCommand
    return names


def stages(word):
    """Stages, each with the rules that are off in it, and the cost below which it is enough or None."""
    parts = word.split(",")
    if len(parts) > MOST_STAGES:
        raise NoCommand
    found = []
    for part in parts:
        off, at, threshold = part.partition("@")
        limit = number(threshold, 1, MOST_THRESHOLD) if at else None
        found.append(Stage([] if off == "all" else rules(off), limit))
    return found


OPTIONS = {
    "workers": lambda word: number(word, 1, 64),
    "capacity": lambda word: number(word, 64, 1048576),
    "root": lambda word: one_of(word, {"one": ONE, "spread": SPREAD}),
    "off": rules,
}
WORDS = {
    "NUMBER": lambda word: number(word, 0, 2**64 - 1),
    "TABLES": lambda word: number(word, 1, 8),
    "SHAPE": lambda word: one_of(word, {shape: shape for shape in ("chain", "star", "clique")}),
    "STAGES": stages,
}
