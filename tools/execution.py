"""Executes a printed plan, node by node, over rows that lie on segments.

Each node does what its text says, and no more: where a text promises no order, the rows are shuffled, and where it
needs something of the rows below (an order, one place, a hash), rows without it are a fault.
"""

import collections
import functools
import heapq
import operator

from plain_plans import is_column
from plan_of_query import columns_of_sides, copy_of, index_of, merged_by, table_of, tested
from random_rows import name_of, segment_of

ONE_PLACE, SPREAD, COPIES = "at one place", "spread over the segments", "copied to each segment"
ROWS, PARTIAL, GROUPS = "rows", "partial groups", "groups"
MOST_ROWS = 300_000

COMPARED = {
    "=": operator.eq, "<>": operator.ne, "<": operator.lt, "<=": operator.le, ">": operator.gt, ">=": operator.ge,
}


class Fault(Exception):
    """A node that can't do what its text says over the rows that it is given; the message says why."""


class TooManyRows(Exception):
    """A node that gives more rows than are made here."""


class Given:
    """What a node gives: how its rows lie, the rows of each part, and what they are.

    A row has a value for each column by its text (as `t.a`), and for each aggregate by aggregate_name.
    """

    def __init__(self, lie, parts, kind=ROWS):
        self.lie, self.parts, self.kind = lie, parts, kind

    def rows(self):
        """The rows, those of copies once."""
        return list(self.parts[0]) if self.lie == COPIES else [row for part in self.parts for row in part]

    def most(self):
        """The rows of the segment that has the most."""
        return max(map(len, self.parts))


# ---- values and orders


def rank(value):
    """By which values are compared: none before numbers, and these before texts."""
    return (0, 0) if value is None else (2, value) if isinstance(value, str) else (1, value)


@functools.total_ordering
class Descending:
    """A rank of which the greater one comes first."""

    def __init__(self, of):
        self.of = of

    def __eq__(self, other):
        return self.of == other.of

    def __lt__(self, other):
        return other.of < self.of


def order_key(elements):
    """By which rows stand in an order, a list of columns or aggregates, each with whether it descends."""

    def key(row):
        return tuple(Descending(rank(row[name])) if descends else rank(row[name]) for name, descends in elements)

    return key


def is_in_order(rows, key):
    keys = list(map(key, rows))
    return all(not after < before for before, after in zip(keys, keys[1:]))


def aggregate_name(number):
    """The name under which a row has an aggregate."""
    return f"aggregate {number}"


# ---- aggregates


def made(function, values):
    """An aggregate of the values of rows."""
    return len(values) if function == "COUNT" else combined(function, values)


def combined(function, values):
    """An aggregate of those of partial groups; of none, counts are zero and others have no value."""
    values = [value for value in values if value is not None]
    if function == "COUNT" or function == "SUM":
        return sum(values) if values or function == "COUNT" else None
    return {"MIN": min, "MAX": max}[function](values, key=rank, default=None)


class Execution:
    """The execution of plans of a query over placed tables; what each node gave is kept in `given`."""

    def __init__(self, query, placed, pick):
        self.query, self.placed, self.pick, self.given = query, placed, pick, {}
        self.names = {name: aggregate_name(k) for k, (_, name) in enumerate(query.aggs) if name is not None}
        self.groups_by = [query.column_text(query.items[item]) for item in query.groups_by]

    def execute(self, node):
        """What the node gives, all below it executed before."""
        below = [self.execute(kid) for kid in node.kids]
        try:
            given = NODES[node.operator](self, node, *below)
        except KeyError as missing:
            raise Fault(f"{node.name} asks for {missing}, which the rows below don't have") from missing
        if sum(map(len, given.parts)) > MOST_ROWS:
            raise TooManyRows(f"{node.name} gives more than {MOST_ROWS:,} rows")
        self.given[node] = given
        return given

    # ---- what nodes need

    def need(self, node, given, lie, *kinds):
        """That rows lie so, and are of one of these kinds."""
        if given.lie != lie:
            raise Fault(f"{node.name} needs what is {lie}, and stands over what is {given.lie}")
        self.need_kind(node, given, *kinds)

    def need_kind(self, node, given, *kinds):
        if kinds and given.kind not in kinds:
            raise Fault(f"{node.name} stands over {given.kind}")

    def need_order(self, node, given, key):
        if not all(is_in_order(part, key) for part in given.parts):
            raise Fault(f"{node.name} stands over rows that aren't in its order")

    def need_hash(self, node, given, columns):
        """That each row lies where the hash of these columns says."""
        for segment, part in enumerate(given.parts):
            for row in part:
                if segment_of([row[column] for column in columns], len(given.parts)) != segment:
                    raise Fault(f"{node.name} stands over rows that don't lie by the hash of {', '.join(columns)}")

    def columns(self, node, text):
        """The columns that a node lists."""
        columns = text.split(", ")
        known = {self.query.column_text(column) for column in self.query.values}
        if not known.issuperset(columns):
            raise Fault(f"{node.name} names a column that the query doesn't have")
        return columns

    def elements(self, node, text):
        """The elements of an order, each with whether it descends."""
        elements = []
        for element in text.split(", "):
            name, *descends = element.split(" ")
            elements.append((self.names[name] if name in self.names else self.columns(node, name)[0], bool(descends)))
        return elements

    # ---- rows in no order but that which is promised

    def shuffled(self, rows):
        rows = list(rows)
        self.pick.shuffle(rows)
        return rows

    def in_order(self, rows, key):
        """The rows in this order, and those with equal keys in any."""
        return sorted(self.shuffled(rows), key=key)

    # ---- tables

    def table_rows(self, node, arranged):
        """The rows of a table under the alias that the node names, those of each part arranged so."""
        t = table_of(self.query, node)
        table = self.placed[name_of(self.query.tables[t])]
        texts = [self.query.column_text((t, column)) for column in table.columns]
        lie, parts = self.read_parts(node, table)
        return Given(lie, [arranged([dict(zip(texts, row)) for row in part]) for part in parts])

    def read_parts(self, node, table):
        """How the rows of a table lie as the node reads them; of copies all segments read a share, or one reads all."""
        if not table.replicated:
            return SPREAD, table.parts
        copy, rows = copy_of(node), self.shuffled(table.rows())
        if copy == "own":
            return SPREAD, [rows[segment :: len(table.parts)] for segment in range(len(table.parts))]
        if copy == "one":
            return ONE_PLACE, [rows]
        return COPIES, table.parts

    def table_and_index(self, node):
        """The table and the number of the index that a node names."""
        t, number = table_of(self.query, node), index_of(node)
        if number is None or number >= len(self.query.tables[t]["indexes"]):
            raise Fault(f"{node.name} names an index that the table doesn't have")
        return t, number

    def index_key(self, node):
        """The order of the index that a node names."""
        t, number = self.table_and_index(node)
        columns = self.query.tables[t]["indexes"][number]
        return order_key([(self.query.column_text((t, column)), False) for column in columns])

    def scan(self, node):
        return self.table_rows(node, self.shuffled)

    def index_scan(self, node):
        key = self.index_key(node)
        return self.table_rows(node, lambda rows: self.in_order(rows, key))

    def index_seek(self, node):
        key, meets = self.index_key(node), self.test(tested(self.query, node))
        if not self.query.is_usable(*self.table_and_index(node)):
            raise Fault(f"{node.name} seeks by an index whose first column is compared with no literal")
        return self.table_rows(node, lambda rows: self.in_order(filter(meets, rows), key))

    def filter(self, node, below):
        self.need_kind(node, below, ROWS)
        meets = self.test(tested(self.query, node))
        return Given(below.lie, [list(filter(meets, part)) for part in below.parts])

    def test(self, numbers):
        """Whether a row meets the predicates of these numbers."""
        tests = [self.one_test(number) for number in numbers]
        return lambda row: all(meets(row) for meets in tests)

    def one_test(self, number):
        left, comparison, right = self.query.preds[number]
        left_text, compared = self.query.column_text(left), COMPARED[comparison]
        if not is_column(right):
            return lambda row: compared(rank(row[left_text]), rank(right))
        right_text = self.query.column_text(right)
        return lambda row: compared(rank(row[left_text]), rank(row[right_text]))

    # ---- joins

    def sides(self, node, left, right):
        """Checks that two sides lie as the join's mode says."""
        mode, number = node.inside.split(" ")[0], merged_by(self.query, node)
        wanted = {"one": (ONE_PLACE, ONE_PLACE), "copied": (SPREAD, COPIES), "colocated": (SPREAD, SPREAD)}
        for side, lie in zip((left, right), wanted[mode]):
            self.need(node, side, lie, ROWS)
        if mode == "colocated":
            if number is None:
                raise Fault(f"{node.name} doesn't name the equality by which its sides lie alike")
            for side, column in zip((left, right), columns_of_sides(self.query, node, number)):
                self.need_hash(node, side, [self.query.column_text(column)])

    def joined(self, node, left, right, pairs, finish):
        """The pairs of rows of each part that meet the predicates of the join."""
        self.sides(node, left, right)
        meets, parts, count = self.test(tested(self.query, node)), [], 0
        for one, other in zip(left.parts, right.parts):
            rows = []
            for left_row, right_row in pairs(one, other):
                row = {**left_row, **right_row}
                if meets(row):
                    rows.append(row)
                    count += 1
                    if count > MOST_ROWS:
                        raise TooManyRows(f"{node.name} gives more than {MOST_ROWS:,} rows")
            parts.append(finish(rows))
        return Given(left.lie, parts)

    def hash_join(self, node, left, right):
        numbers = [number for number in tested(self.query, node) if self.query.preds[number][1] == "="]
        by = list(zip(*(self.texts_of_sides(node, number) for number in numbers))) or [(), ()]

        def pairs(one, other):
            found = collections.defaultdict(list)
            for row in other:
                found[tuple(row[column] for column in by[1])].append(row)
            return ((row, match) for row in one for match in found.get(tuple(row[column] for column in by[0]), []))

        return self.joined(node, left, right, pairs, self.shuffled)

    def merge_join(self, node, left, right):
        number = merged_by(self.query, node)
        if number is None:
            raise Fault(f"{node.name} doesn't name the equality by which it merges")
        keys = [order_key([(column, False)]) for column in self.texts_of_sides(node, number)]
        for side, key in zip((left, right), keys):
            self.need_order(node, side, key)
        return self.joined(
            node, left, right, lambda one, other: merged(one, other, *keys), lambda rows: self.in_order(rows, keys[0])
        )

    def loop_join(self, node, left, right):
        pairs = lambda one, other: ((row, match) for row in one for match in self.shuffled(other))
        return self.joined(node, left, right, pairs, list)

    def texts_of_sides(self, node, number):
        return [self.query.column_text(column) for column in columns_of_sides(self.query, node, number)]

    # ---- groups

    def group(self, rows):
        """The rows of each group, by the values of its columns; without GROUP BY there is one group."""
        groups = collections.defaultdict(list)
        if not self.groups_by:
            groups[()] = []
        for row in rows:
            groups[tuple(row[column] for column in self.groups_by)].append(row)
        return groups.items()

    def streamed(self, rows):
        """The same of rows in the order of GROUP BY: a group ends where another one begins."""
        groups = []
        for row in rows:
            values = tuple(row[column] for column in self.groups_by)
            if not groups or groups[-1][0] != values:
                groups.append((values, []))
            groups[-1][1].append(row)
        return groups

    def group_row(self, values, rows, kind):
        """The row of a group, of rows or of partial groups."""
        row = dict(zip(self.groups_by, values))
        for k, ((function, column), _) in enumerate(self.query.aggs):
            name = aggregate_name(k)
            if kind == PARTIAL:
                row[name] = combined(function, [one[name] for one in rows])
            else:
                text = None if column is None else self.query.column_text(column)
                row[name] = made(function, [None if text is None else one[text] for one in rows])
        return row

    def need_groups(self, node, below):
        """That what is grouped lies as the node's text says."""
        where, _, columns = node.inside.partition(" ")
        if where not in ("one", "hashed"):
            raise Fault(f"{node.name} isn't told as an aggregation is")
        self.need(node, below, ONE_PLACE if where == "one" else SPREAD, ROWS, PARTIAL)
        if where == "hashed":
            self.need_hash(node, below, self.grouped_columns(node, columns))

    def grouped_columns(self, node, text):
        columns = self.columns(node, text)
        if not set(columns) <= set(self.groups_by):
            raise Fault(f"{node.name} names a column that isn't in GROUP BY")
        return columns

    def hash_agg(self, node, below):
        self.need_groups(node, below)
        parts = [[self.group_row(*group, below.kind) for group in self.group(part)] for part in below.parts]
        return Given(below.lie, list(map(self.shuffled, parts)), GROUPS)

    def stream_agg(self, node, below):
        self.need_groups(node, below)
        self.need_order(node, below, order_key([(column, False) for column in self.groups_by]))
        parts = [[self.group_row(*group, below.kind) for group in self.streamed(part)] for part in below.parts]
        return Given(below.lie, parts, GROUPS)

    def partial_agg(self, node, below):
        self.need(node, below, SPREAD, ROWS)
        parts = [[self.group_row(*group, ROWS) for group in self.group(part)] for part in below.parts]
        return Given(SPREAD, list(map(self.shuffled, parts)), PARTIAL)

    # ---- orders and motions

    def sort(self, node, below):
        key = order_key(self.elements(node, node.inside))
        return Given(below.lie, [self.in_order(part, key) for part in below.parts], below.kind)

    def gather(self, node, below):
        self.need(node, below, SPREAD)
        return Given(ONE_PLACE, [self.shuffled(below.rows())], below.kind)

    def gather_merge(self, node, below):
        self.need(node, below, SPREAD)
        key = order_key(self.elements(node, node.inside))
        self.need_order(node, below, key)
        return Given(ONE_PLACE, [list(heapq.merge(*below.parts, key=key))], below.kind)

    def redistribute(self, node, below):
        self.need(node, below, SPREAD)
        columns = self.columns(node, node.inside)
        parts = [[] for _ in below.parts]
        for row in below.rows():
            parts[segment_of([row[column] for column in columns], len(parts))].append(row)
        return Given(SPREAD, list(map(self.shuffled, parts)), below.kind)

    def broadcast(self, node, below):
        self.need(node, below, SPREAD)
        return Given(COPIES, [self.shuffled(below.rows()) for _ in below.parts], below.kind)


def merged(left, right, left_key, right_key):
    """The pairs with equal keys, of two sides in the order of theirs."""
    begin = 0
    for row in left:
        while begin < len(right) and right_key(right[begin]) < left_key(row):
            begin += 1
        at = begin
        while at < len(right) and right_key(right[at]) == left_key(row):
            yield row, right[at]
            at += 1


NODES = {
    "Scan": Execution.scan,
    "IndexScan": Execution.index_scan,
    "IndexSeek": Execution.index_seek,
    "Filter": Execution.filter,
    "HashJoin": Execution.hash_join,
    "MergeJoin": Execution.merge_join,
    "LoopJoin": Execution.loop_join,
    "HashAgg": Execution.hash_agg,
    "StreamAgg": Execution.stream_agg,
    "PartialAgg": Execution.partial_agg,
    "Sort": Execution.sort,
    "Gather": Execution.gather,
    "GatherMerge": Execution.gather_merge,
    "Redistribute": Execution.redistribute,
    "Broadcast": Execution.broadcast,
}
