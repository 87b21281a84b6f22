"""A printed plan beside its query: the tables below each node, and the predicates that it tests."""

import re

from plain_plans import is_column
from printed_plan import NotAPlan

READS = ["Scan", "IndexScan", "IndexSeek"]
JOINS = ["HashJoin", "MergeJoin", "LoopJoin"]
AGGREGATIONS = ["HashAgg", "StreamAgg"]
MOTIONS = ["Gather", "GatherMerge", "Redistribute", "Broadcast"]

# what stands in the parentheses of a read
READ = re.compile(r"\w+(?:, i\d+)?(?: (?P<copy>own|one|copies))?", re.ASCII)

# how many nodes stand below a node
KIDS = {
    **dict.fromkeys(READS, 0),
    **dict.fromkeys(JOINS, 2),
    **dict.fromkeys(AGGREGATIONS + MOTIONS + ["Filter", "PartialAgg", "Sort"], 1),
}


def check_nodes(query, plan):
    """That the plan is one of the query as far as its text tells: its output, its nodes, its tables, its predicates."""
    if plan.output != query.output_text():
        raise NotAPlan(f"the plan's output is {plan.output}, and the query's is {query.output_text()}")
    for node in plan.nodes():
        if node.operator not in KIDS:
            raise NotAPlan(f"{node.name} is no node of a plan")
        if len(node.kids) != KIDS[node.operator]:
            raise NotAPlan(f"{node.name} stands over {len(node.kids)} nodes in place of {KIDS[node.operator]}")
        if node.operator in JOINS:
            merged_by(query, node)
        if node.operator in READS:
            check_read(query, node)
    if tables_below(query, plan.root) != set(range(len(query.tables))):
        raise NotAPlan("the plan doesn't read each table of the query")


def check_read(query, node):
    """That a read says which copy of a table it reads, exactly where each segment has one."""
    if READ.fullmatch(node.inside) is None:
        raise NotAPlan(f"{node.name} isn't told as a read is")
    if query.tables[table_of(query, node)].get("replicated"):
        if copy_of(node) is None:
            raise NotAPlan(f"{node.name} doesn't say how it reads a table of which each segment has a copy")
    elif copy_of(node) is not None:
        raise NotAPlan(f"{node.name} reads a copy of {alias_of(node)}, which has none")


def alias_of(node):
    """The alias of the table that a read or a filter names."""
    return re.split("[ ,]", node.inside)[0]


def index_of(node):
    """The number of the index that a read names, or None."""
    named = re.search(r", i(\d+)", node.inside)
    return None if named is None else int(named[1])


def copy_of(node):
    """How a read takes a table of which each segment has a copy: "own", each segment its own share of the rows, "one",
    one segment all rows, or "copies", each segment all rows; None where it doesn't say."""
    return READ.fullmatch(node.inside)["copy"]


def table_of(query, node):
    """The number of the table that a read or a filter names."""
    for t, table in enumerate(query.tables):
        if table["name"] == alias_of(node):
            return t
    raise NotAPlan(f"{node.name}: the query has no table {alias_of(node)}")


def tables_below(query, node):
    """The numbers of the tables that the node and those below it read."""
    if node.operator in READS:
        return {table_of(query, node)}
    return set().union(*(tables_below(query, kid) for kid in node.kids))


def tables_of_pred(query, number):
    left, _, right = query.preds[number]
    return {side[0] for side in (left, right) if is_column(side)}


def tested(query, node):
    """The numbers of the predicates that the node tests: a table's own, or those that compare the sides of a join."""
    numbers = range(len(query.preds))
    if node.operator in ("Filter", "IndexSeek"):
        own = {table_of(query, node)}
        return [number for number in numbers if tables_of_pred(query, number) == own]
    if node.operator in JOINS:
        left, right = (tables_below(query, kid) for kid in node.kids)
        return [
            number
            for number in numbers
            if tables_of_pred(query, number) <= left | right
            and not tables_of_pred(query, number) <= left
            and not tables_of_pred(query, number) <= right
        ]
    return []


def merged_by(query, node):
    """The number of the equality that a join names, by which it merges or its sides lie alike; or None."""
    named = re.fullmatch(r"(?:one|copied|colocated)(?: p(\d+))?", node.inside)
    if named is None:
        raise NotAPlan(f"{node.name} isn't told as a join is")
    if named[1] is None:
        return None
    number = int(named[1])
    if number not in tested(query, node) or query.preds[number][1] != "=":
        raise NotAPlan(f"{node.name}: predicate {number} is no equality between the two sides")
    return number


def columns_of_sides(query, node, number):
    """The two columns of a predicate of a join, that of the left side first."""
    left, _, right = query.preds[number]
    return (left, right) if left[0] in tables_below(query, node.kids[0]) else (right, left)
