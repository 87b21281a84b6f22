"""Reads a catalogue or tells its first fault, and writes one, as a part of the plain program (plain_plans.py)."""

import collections
import json
import re

from plain_plans import column_of

LONGEST_CATALOG = 1048576
MOST = 10**12
DEEPEST = 127
NAME = re.compile(r"[A-Za-z_][A-Za-z0-9_]*")
STRING = re.compile(r'"(?:[^"\\]|\\.)*"', re.DOTALL)
LONGEST_NAME = 64

# the version, the number of segments, and the tables by their names, as plain_plans.Query takes them
Catalog = collections.namedtuple("Catalog", "version segments tables")


class CatalogFault(Exception):
    """A catalogue that can't be read; the message is the cause that the program tells."""


# ---- JSON


class NoWhole(float):
    """A number that isn't written as an integer of 64 bits."""


def whole(digits):
    """The number of an integer's digits; beyond 64 bits, and of -0, it is no whole one."""
    if digits == "-0" or len(digits) > 20 or not -(2**63) <= int(digits) < 2**64:
        return broken(digits)
    return int(digits)


def broken(digits):
    """A number with a point or an exponent, which has to be in the range of 64 bits."""
    if abs(float(digits)) == float("inf"):
        raise ValueError("a number out of range")
    return NoWhole(digits)


def no_constant(word):
    raise ValueError(f"{word} is no JSON")


def depth_of(text):
    """How deep lists and objects are nested, in a text that is JSON."""
    deepest = depth = 0
    for sign in re.findall(r"[][{}]", STRING.sub("", text)):
        depth += 1 if sign in "[{" else -1
        deepest = max(deepest, depth)
    return deepest


def has_lone_surrogate(text):
    """Whether a string has an escaped half of a pair without the other half."""
    return any(
        "\ud800" <= letter <= "\udfff"
        for string in STRING.findall(text)
        if "\\u" in string
        for letter in json.loads(string, strict=False)
    )


def read_json(text):
    """What the bytes say. Of a repeated key the last value counts."""
    try:
        letters = text.decode("utf-8")
        if depth_of(letters) > DEEPEST:
            raise ValueError("nested too deep")
        value = json.loads(letters, parse_int=whole, parse_float=broken, parse_constant=no_constant)
        if has_lone_surrogate(letters):
            raise ValueError("a lone surrogate")
    except (ValueError, RecursionError) as fault:
        raise CatalogFault("not JSON") from fault
    return value


# ---- the walk: each part is read with its path


def shape(path):
    return CatalogFault(f"shape at {path}")


def part(kind, value, path):
    """The value, which has to be of this kind."""
    if not isinstance(value, kind) or isinstance(value, bool):
        raise shape(path)
    return value


def member(entry, key, path):
    """The value of a key that has to be there, and its path."""
    if key not in entry:
        raise shape(f"{path}/{key}")
    return entry[key], f"{path}/{key}"


def number(value, path, least, most):
    if part(int, value, path) < 0:
        raise shape(path)
    if not least <= value <= most:
        raise CatalogFault(f"range at {path}")
    return value


def signed(value, path):
    if not -(2**63) <= part(int, value, path) < 2**63:
        raise shape(path)
    return value


def listed(value, path, least, most):
    """The elements of a list, each with its path."""
    if not least <= len(part(list, value, path)) <= most:
        raise CatalogFault(f"range at {path}")
    return [(element, f"{path}/{place}") for place, element in enumerate(value)]


def name(value, path):
    if not NAME.fullmatch(part(str, value, path)) or len(value) > LONGEST_NAME:
        raise shape(path)
    return value


def new_name(value, path, before):
    """A name that none of those before has."""
    if name(value, path) in before:
        raise CatalogFault(f"twice at {path}")
    return value


def read_catalog(text):
    """The catalogue of the text, which is bytes."""
    if len(text) > LONGEST_CATALOG:
        raise CatalogFault("too long")
    entry = part(dict, read_json(text), "")
    version, path = member(entry, "version", "")
    if part(int, version, path) < 0:
        raise shape(path)
    if version not in (1, 2):
        raise CatalogFault(f"version {version}")
    segments = number(*member(entry, "segments", ""), 1, 1000)
    tables = {}
    for value, path in listed(*member(entry, "tables", ""), 0, 1000):
        table = read_table(value, path, tables, version)
        tables[table["name"]] = table
    return Catalog(version, segments, tables)


def read_table(entry, path, before, version):
    part(dict, entry, path)
    called = new_name(*member(entry, "name", path), before)
    rows = number(*member(entry, "rows", path), 0, MOST)
    columns, histograms = [], {}
    for value, at in listed(*member(entry, "columns", path), 1, 1000):
        read_column(value, at, columns, histograms, version)
    names = [column for column, _ in columns]
    hashed, replicated = read_distribution(*member(entry, "distribution", path), names, version)
    indexes = []
    if "indexes" in entry:
        indexes = [names_of(*index, names) for index in listed(entry["indexes"], f"{path}/indexes", 0, 16)]
    return {
        "name": called, "rows": rows, "columns": columns, "hashed": hashed, "replicated": replicated,
        "histograms": histograms, "indexes": indexes,
    }


def read_column(entry, path, columns, histograms, version):
    """Adds a column to those before, and its histogram."""
    part(dict, entry, path)
    called = new_name(*member(entry, "name", path), dict(columns))
    columns.append((called, number(*member(entry, "ndv", path), 0, MOST)))
    if version == 2 and "histogram" in entry:
        histograms[called] = read_histogram(*member(entry, "histogram", path))


def read_histogram(entry, path):
    part(dict, entry, path)
    low = signed(*member(entry, "low", path))
    buckets, least = [], low
    for value, at in listed(*member(entry, "buckets", path), 1, 64):
        part(dict, value, at)
        upto, place = member(value, "upto", at)
        if signed(upto, place) < least:
            raise CatalogFault(f"range at {place}")
        buckets.append((upto, number(*member(value, "rows", at), 0, MOST)))
        least = upto + 1
    return low, buckets


def read_distribution(value, path, names, version):
    """The names of the columns by which the rows lie, or None; and whether all rows lie on each segment."""
    if isinstance(value, str):
        if value not in ("random", "replicated") or value == "replicated" and version == 1:
            raise shape(path)
        return None, value == "replicated"
    return names_of(value, path, names), False


def names_of(value, path, names):
    """A list of columns."""
    found = []
    for element, at in listed(value, path, 1, 8):
        if name(element, at) not in names:
            raise CatalogFault(f"unknown column at {at}")
        found.append(new_name(element, at, found))
    return found


# ---- the text of a catalogue


def catalog_text(segments, tables):
    """The catalogue of version 2 with these tables, in one line without spaces."""
    entries = []
    for table in tables:
        entry = {"name": table["name"], "rows": table["rows"]}
        entry["distribution"] = "replicated" if table["replicated"] else table["hashed"] or "random"
        entry["columns"] = [column_of(table, *column) for column in table["columns"]]
        if table["indexes"]:
            entry["indexes"] = table["indexes"]
        entries.append(entry)
    return json.dumps({"version": 2, "segments": segments, "tables": entries}, separators=(",", ":"))
