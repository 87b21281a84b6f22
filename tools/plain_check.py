"""Reads a printed plan back, judges it and prices it, as a part of the plain program (plain_plans.py).

The faults are asked for one behind the other, each of the whole text: its form, too many nodes, nodes without kids that
they can stand over, expressions that aren't members, needs that aren't met, the root's request, and the numbers.
"""

import collections
import re

from plain_plans import (
    AGG, PARTIAL, Member, begins, broadcast, gather, gather_merge, is_spread, meets, native, redistribute, sort, suits,
    tables_of,
)

LONGEST_PLAN, MOST_NODES, MOST_NUMBER = 1048576, 1000, 2**64 - 1
NODE = re.compile(r"(?P<indent> *)(?P<text>[^ ].*) rows=(?P<rows>[0-9]+) cost=(?P<cost>[0-9]+)")
COST = re.compile(r"cost ([0-9]+)")
FIRST_NODE = 2

# a node as its line has it; named is a Named
NodeLine = collections.namedtuple("NodeLine", "level text named rows cost")
# what the text of a node tells: its operator, and what it is about (a table, a table and an index, an order or a list)
Named = collections.namedtuple("Named", "operator about")
# a node over its kids: its plan, its expression or None, and whether the kids give what it needs
Judged = collections.namedtuple("Judged", "plan member has_needs")


class PlanFault(Exception):
    """A plan's text that is refused; the message is the cause that the program tells."""


def check_text(query, text):
    """The cost of the plan of the text, which is bytes."""
    if len(text) > LONGEST_PLAN:
        raise PlanFault("too long")
    total, lines = read_lines(query, text.decode("latin-1"))
    if len(lines) > MOST_NODES:
        raise PlanFault(f"too large: {len(lines)}")
    nodes = judged_nodes(query, lines)
    first_without("member", nodes, lambda node: is_member(query, node))
    first_without("needs", nodes, lambda node: node.has_needs)
    root = nodes[0].plan
    if not meets(root.dist, query.root) or not begins(root.order, query.wanted):
        raise PlanFault("root request")
    if total != root.cost:
        raise PlanFault("number at line 0")
    pairs = list(zip(lines, nodes))
    first_without("number", pairs, lambda pair: pair[0][3:] == (pair[1].plan.rows, pair[1].plan.local))
    return root.cost


def first_without(cause, nodes, holds):
    """That something holds of each node; the first line without it is told."""
    for place, node in enumerate(nodes):
        if not holds(node):
            raise PlanFault(f"{cause} at line {place + FIRST_NODE}")


def is_member(query, node):
    return node.member is None or node.member in query.members.get(node.plan.key, set())


# ---- the form


def read_lines(query, text):
    """The total and the node lines of a text; the first line that hasn't its form is told."""
    *lines, behind = text.split("\n")
    texts = node_texts(query)
    total, nodes = None, []
    for place, line in enumerate(lines):
        if place == 0:
            cost = COST.fullmatch(line)
            total = number_of(cost[1]) if cost else None
            known = total is not None
        elif place == 1:
            known = line == f"output {query.output_text()}"
        else:
            node = node_line(texts, line)
            known = node is not None and is_in_place(node.level, nodes)
            nodes.append(node)
        if not known:
            raise PlanFault(f"form at line {place}")
    if behind or not nodes:
        raise PlanFault(f"form at line {len(lines)}")
    return total, nodes


def number_of(digits):
    """The number, where it has no zero in front and isn't too large."""
    if not re.fullmatch("0|[1-9][0-9]{0,19}", digits) or int(digits) > MOST_NUMBER:
        return None
    return int(digits)


def node_line(texts, line):
    """The node of a line, or None."""
    parts = NODE.fullmatch(line)
    if not parts or parts["text"] not in texts or len(parts["indent"]) % 2:
        return None
    rows, cost = number_of(parts["rows"]), number_of(parts["cost"])
    if rows is None or cost is None:
        return None
    return NodeLine(len(parts["indent"]) // 2, parts["text"], texts[parts["text"]], rows, cost)


def is_in_place(level, before):
    """Whether a line of this level may stand behind those."""
    return 1 <= level <= before[-1].level + 1 if before else level == 0


def node_texts(query):
    """Each text of a node that names what the query has."""
    texts = {text: Named(text.split("(")[0], None) for text in join_and_group_texts(query)}
    for t, table in enumerate(query.tables):
        reads = [("Scan", t, 0)]
        reads += [(op, t, index) for op in ("IndexScan", "IndexSeek") for index in range(len(table["indexes"]))]
        for op, _, index in reads:
            for line in query.lines(t, Member(op, index, ())):
                texts[line.name] = Named(op, (t, index))
        texts[f"Filter({table['name']})"] = Named("Filter", (t, 0))
    for order in filter(None, query.orders):
        texts[f"Sort({query.order_text(order)})"] = Named("Sort", order)
        texts[f"GatherMerge({query.order_text(order)})"] = Named("GatherMerge", order)
    for number in query.items_of:
        texts[f"Redistribute({query.list_text(number)})"] = Named("Redistribute", number)
    return texts


def join_and_group_texts(query):
    """The texts of joins, aggregations and motions, which are about nothing beside their modes."""
    yield from ["HashJoin(one)", "HashJoin(copied)", "LoopJoin(one)", "LoopJoin(copied)"]
    for number in range(len(query.preds)):
        yield f"HashJoin(colocated p{number})"
        yield from [f"MergeJoin({mode} p{number})" for mode in ("one", "copied", "colocated")]
    yield from ["HashAgg(one)", "StreamAgg(one)", "PartialAgg", "Gather", "Broadcast"]
    for number in query.items_of:
        yield from [f"{op}(hashed {query.list_text(number)})" for op in ("HashAgg", "StreamAgg")]


# ---- the nodes over their kids


def judged_nodes(query, lines):
    """The node of each line; the last line that can't stand over its kids is told."""
    nodes = [None] * len(lines)
    open_kids = collections.defaultdict(list)
    for place in reversed(range(len(lines))):
        line = lines[place]
        kids = tuple(reversed(open_kids.pop(line.level + 1, [])))
        node = node_over(query, line.text, line.named, kids)
        if node is None or place == 0 and node.plan.key != query.root_key():
            raise PlanFault(f"kids at line {place + FIRST_NODE}")
        nodes[place] = node
        open_kids[line.level].append(node.plan)
    return nodes


def node_over(query, text, named, kids):
    """The node of this text over these plans, or None where it can't stand over them."""
    if named.operator in ("Sort", "Gather", "GatherMerge", "Redistribute", "Broadcast"):
        return enforcer_over(query, named, *kids) if len(kids) == 1 else None
    key, member = expression_over(query, named, tuple(kid.key for kid in kids))
    line = next((line for line in lines_of(query, key, member) if line.name == text), None)
    if line is None:
        return None
    hashed_in_group = key != AGG or line.dist[0][0] != "Hashed" or query.list_lies_in(key, line.dist[0][1])
    return Judged(native(query, key, member, line, kids), member, hashed_in_group and suits(line, kids))


def enforcer_over(query, named, kid):
    operator, about = named
    spread = is_spread(kid.dist)
    if operator == "Sort":
        return Judged(sort(query, about, kid), None, query.order_lies_in(kid.key, about))
    if operator == "GatherMerge":
        has_needs = spread and begins(kid.order, about) and query.order_lies_in(kid.key, about)
        return Judged(gather_merge(query, about, kid), None, has_needs)
    if operator == "Redistribute":
        return Judged(redistribute(query, about, kid), None, spread and query.list_lies_in(kid.key, about))
    return Judged((gather if operator == "Gather" else broadcast)(query, kid), None, spread)


def expression_over(query, named, keys):
    """The group and the expression of a node over kids of these groups; None and None where there is none."""
    operator, about = named
    none = None, None
    if operator in ("Scan", "IndexScan", "IndexSeek", "Filter"):
        t, index = about
        key, children = t if operator in ("Scan", "IndexScan") else 16 + t, (t,) if operator == "Filter" else ()
        is_there = key == t or query.top(1 << t) == key
        return (key, Member(operator, index, children)) if is_there and keys == children else none
    if operator == "PartialAgg":
        return (PARTIAL, Member(operator, 0, keys)) if query.grouped and keys == (query.input_key(),) else none
    if operator in ("HashAgg", "StreamAgg"):
        is_there = query.grouped and keys in [(query.input_key(),), (PARTIAL,)]
        return (AGG, Member(operator, 0, keys)) if is_there else none
    if len(keys) != 2 or not all(key < PARTIAL and query.top(tables_of(key)) == key for key in keys):
        return none
    left, right = map(tables_of, keys)
    is_there = not left & right and query.connected(left | right)
    return (1024 + (left | right), Member(operator, 0, keys)) if is_there else none


def lines_of(query, key, member):
    """The lines of an expression; those of an aggregation for each hashed list, also outside GROUP BY."""
    if member is None:
        return []
    return query.group_lines(member.op, query.items_of) if key == AGG else query.lines(key, member)
