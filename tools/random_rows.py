"""Random rows for the tables of a query, placed on the segments as the catalogue says.

Columns that a query compares with each other take their values from one list, which begins with the literals that they
are compared with and goes on with neighbours of these; so comparisons are met often. A column is of numbers, or of
texts where it is compared with texts alone.
"""

import itertools
import zlib

from plain_plans import is_column

MOST_INTEGER = 2**63 - 1


def segment_of(values, segments):
    """The segment on which a row with these values of the hashed columns lies."""
    return zlib.crc32(repr(tuple(values)).encode()) % segments


def name_of(table):
    """The name of a table in the catalogue."""
    return table.get("of", table["name"])


class Placed:
    """A table with its rows: those of each segment, a row being a value for each column."""

    def __init__(self, table, segments):
        self.columns = [name for name, _ in table["columns"]]
        self.hashed, self.replicated = table["hashed"], table.get("replicated", False)
        self.parts = [[] for _ in range(segments)]

    def rows(self):
        """The rows, those of copies once."""
        return list(self.parts[0]) if self.replicated else [row for part in self.parts for row in part]

    def put(self, row, pick):
        """Puts a row on each segment, or where the hash of the columns says, or anywhere."""
        if self.replicated:
            for part in self.parts:
                part.append(row)
        elif self.hashed is None:
            pick.choice(self.parts).append(row)
        else:
            values = [row[self.columns.index(name)] for name in self.hashed]
            self.parts[segment_of(values, len(self.parts))].append(row)


def place_tables(query, pick, sizes):
    """The tables of the query by their names in the catalogue, each with its rows; sizes tells those of a table."""
    lists = value_lists(query, pick)
    placed = {}
    for table in query.tables:
        if name_of(table) not in placed:
            placed[name_of(table)] = place_rows(query, table, pick, lists, *sizes(table))
    return placed


def catalog_sizes(most_rows, most_values):
    """As many rows of a table as the catalogue says, and as many values of its columns, but no more than these."""

    def sizes(table):
        rows = min(table["rows"], most_rows)
        return rows, {name: max(1, min(values, rows, most_values)) for name, values in table["columns"]}

    return sizes


def any_sizes(pick):
    """Few rows of a table, and few values of its columns, whatever the catalogue says."""

    def sizes(table):
        values = {name: pick.choice([1, 2, 3, 5, 8]) for name, _ in table["columns"]}
        return pick.choice([0, 1, 4, 8, 8, 12, 12]), values

    return sizes


def place_rows(query, table, pick, lists, count, values):
    placed = Placed(table, query.segments)
    chosen = [
        list(itertools.islice(lists[name_of(table), column].values(), values[column])) for column in placed.columns
    ]
    for _ in range(count):
        placed.put(tuple(map(pick.choice, chosen)), pick)
    return placed


# ---- the values of columns


class ValueList:
    """What columns that are compared take their values from: literals, and then their neighbours on either side."""

    def __init__(self, column):
        self.columns, self.literals, self.summed, self.upwards = {column}, [], False, True

    def is_text(self):
        return not self.summed and bool(self.literals) and all(isinstance(literal, str) for literal in self.literals)

    def values(self):
        """The values, each once, without an end."""
        known = set()
        for value in self.texts() if self.is_text() else self.integers():
            if value not in known:
                known.add(value)
                yield value

    def texts(self):
        yield from self.literals
        for step in itertools.count(1):
            for literal in self.literals:
                yield f"{literal}{step}"
                yield f"{step}{literal}"

    def integers(self):
        literals = [literal for literal in self.literals if isinstance(literal, int)] or [0]
        for step in itertools.count():
            for literal in literals:
                for value in (literal + step, literal - step) if self.upwards else (literal - step, literal + step):
                    if abs(value) <= MOST_INTEGER:
                        yield value


def value_lists(query, pick):
    """The list of each column, by its table's name in the catalogue and its own."""
    columns = {(name_of(table), column) for table in query.tables for column, _ in table["columns"]}
    lists = {column: ValueList(column) for column in columns}

    def list_of(column):
        return lists[name_of(query.tables[column[0]]), column[1]]

    for left, _, right in query.preds:
        if is_column(right):
            join_lists(lists, list_of(left), list_of(right))
        else:
            list_of(left).literals.append(right)
    for (function, column), _ in query.aggs:
        if function == "SUM":
            list_of(column).summed = True
    for column in sorted(columns):
        lists[column].upwards = pick.random() < 0.5
    return lists


def join_lists(lists, one, other):
    """Makes one list of the two."""
    if one is not other:
        one.columns |= other.columns
        one.literals += other.literals
        for column in other.columns:
            lists[column] = one
