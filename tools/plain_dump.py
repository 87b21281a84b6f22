"""Writes and reads dumps, as a part of the plain program (plain_plans.py)."""

import collections
import re

from plain_catalog import LONGEST_CATALOG, catalog_text
from plain_plans import ONE, RULES
from plain_words import NoCommand, OPTIONS

LONGEST_DUMP = 1179648
PRINTS = {" ".join(["print", *sections]): sections for sections in [[], ["memo"], ["trace"], ["memo", "trace"]]}

# the options of plan that a dump has, the catalogue's bytes and the query's
Dump = collections.namedtuple("Dump", "options catalog query")


class DumpFault(Exception):
    """A dump that can't be read or written; the message is the cause that the program tells."""


def dump_text(select, catalog, query, options):
    """The dump of a query, of which the bytes are given."""
    named = {entry.name for entry in select.tables}
    tables = [table for table in catalog.tables.values() if table["name"] in named]
    whole = catalog_text(catalog.segments, tables)
    if len(whole) > LONGEST_CATALOG:
        raise DumpFault("too long")
    off = "+".join(sorted(options["off"], key=RULES.index))
    sections = "".join(f" {section}" for section in ("memo", "trace") if options[section])
    lines = [
        "orca dump 1",
        f"capacity {options['capacity']}",
        "root one" if options["root"] == ONE else "root spread",
        f"off {off}" if off else "off",
        f"print{sections}",
        f"catalog {whole}",
        f"query {query.decode('latin-1')}",
    ]
    return "\n".join(lines) + "\n"


def read_dump(text):
    """The dump of the text, which is bytes."""
    if len(text) > LONGEST_DUMP:
        raise DumpFault("too long")
    *lines, query = text.split(b"\n", len(READERS))
    options = {}
    for number, read in enumerate(READERS):
        if number >= len(lines) or not read(lines[number].decode("latin-1"), options):
            raise DumpFault(f"line {number}")
    if not query.startswith(b"query ") or not query.endswith(b"\n"):
        raise DumpFault(f"line {len(READERS)}")
    return Dump(options, lines[5][len(b"catalog ") :], query[len(b"query ") : -1])


# ---- the lines: each has its form or not, and may say options


def read_head(line, options):
    return line == "orca dump 1"


def read_capacity(line, options):
    return read_option("capacity", line, options)


def read_root(line, options):
    return read_option("root", line, options)


def read_option(name, line, options):
    """A name of an option and its value."""
    found = re.fullmatch(f"{name} ([^ ]*)", line)
    try:
        options[name] = OPTIONS[name](found[1]) if found else None
    except NoCommand:
        return False
    return found is not None


def read_off(line, options):
    """Rules that are off, in the order of their numbers, or none."""
    if line == "off":
        options["off"] = []
        return True
    return read_option("off", line, options) and options["off"] == sorted(options["off"], key=RULES.index)


def read_print(line, options):
    sections = PRINTS.get(line, [])
    options.update({"memo": "memo" in sections, "trace": "trace" in sections})
    return line in PRINTS


def read_catalog_line(line, options):
    return line.startswith("catalog ")


READERS = [read_head, read_capacity, read_root, read_off, read_print, read_catalog_line]
