#!/usr/bin/env python3
"""Explains a plan: what each of its nodes costs, and what each choice in it saves.

It has the program plan a query over a catalogue, or reads what `plan` printed from a file or from standard input.
It prints the tree of the plan with

  rows    the estimated rows of the node's group
  cost    what the node costs by itself
  total   what it costs with all that stands below it
  share   its own cost as a part of the whole

and, where the query is there, the predicates that the node tests. Where the program refuses the query, it shows the
line of the query with a mark under the place.

  --json  the plan in the keys of PostgreSQL's EXPLAIN (FORMAT JSON), which viewers of its plans open
  --why   plans again without each rule that the plan may rest on: what the rule saves, and what would stand there

Usage: tools/explain.py CATALOG QUERY [--root one|spread] [--off RULE+RULE] [--workers N] [--capacity N]
       [--json | --why] [--program PROGRAM]
       tools/explain.py [FILE] [--json]
"""

import argparse
import collections
import json
import sys

from orca_program import NoAnswer, plan_options, plan_words, planned_text, run, text_of_file
from plain_plans import RULES
from plan_of_query import AGGREGATIONS, JOINS, READS, alias_of, check_nodes, index_of, merged_by, table_of, tested
from printed_plan import NotAPlan, aligned, read_plan, section
from read_query import NotAQuery, read_query

# ---- a tree with its costs


def tree_text(plan, query):
    lines = [["node", "rows", "cost", "total", "share"]]
    for depth, node in plan.root.walk():
        numbers = [f"{node.rows:,}", f"{node.cost:,}", f"{node.total():,}", f"{100 * node.cost / plan.cost:.1f}%"]
        lines.append(["  " * depth + node.name, *numbers, preds_text(query, node)])
    return f"cost {plan.cost:,}\noutput {plan.output}\n\n{aligned(lines)}"


def preds_text(query, node):
    """The predicates that a node tests, where the query is there."""
    return "" if query is None else " AND ".join(map(query.pred_text, tested(query, node)))


# ---- the keys of EXPLAIN (FORMAT JSON)

# a motion that PostgreSQL doesn't have is named as in Greenplum, which has both
NODE_TYPES = {
    "Scan": "Seq Scan",
    "IndexScan": "Index Scan",
    "IndexSeek": "Index Scan",
    "Filter": "Subquery Scan",
    "HashJoin": "Hash Join",
    "MergeJoin": "Merge Join",
    "LoopJoin": "Nested Loop",
    "HashAgg": "Aggregate",
    "StreamAgg": "Aggregate",
    "PartialAgg": "Aggregate",
    "Sort": "Sort",
    "Gather": "Gather",
    "GatherMerge": "Gather Merge",
    "Redistribute": "Redistribute Motion",
    "Broadcast": "Broadcast Motion",
}


def node_json(query, node, relationship=None):
    """A node and all below it. What a first row costs and how wide rows are isn't known, and given as 0."""
    if node.operator not in NODE_TYPES:
        raise NotAPlan(f"{node.name} is no node of a plan")
    known = {"Node Type": NODE_TYPES[node.operator]}
    if relationship is not None:
        known["Parent Relationship"] = relationship
    known.update({"Parallel Aware": False, "Async Capable": False})
    known.update({"Startup Cost": 0.0, "Total Cost": float(node.total()), "Plan Rows": node.rows, "Plan Width": 0})
    known.update(details(query, node))
    if node.kids:
        known["Plans"] = [node_json(query, *below) for below in zip(node.kids, ["Outer", "Inner"])]
    return known


def details(query, node):
    """What the keys of a node's own kind say."""
    if node.operator in READS:
        return read_details(query, node)
    if node.operator == "Filter":
        return {"Alias": node.inside, **conditions("Filter", query, tested(query, node) if query else [])}
    if node.operator in JOINS:
        return join_details(query, node)
    if node.operator in AGGREGATIONS + ["PartialAgg"]:
        return aggregate_details(query, node)
    key = {"Sort": "Sort Key", "Redistribute": "Hash Key"}.get(node.operator)
    return {key: node.inside.split(", ")} if key else {}


def read_details(query, node):
    """The table and its index, and the predicates by which the index is sought."""
    alias, index = alias_of(node), index_of(node)
    table = query.tables[table_of(query, node)] if query else {}
    known = {} if index is None else {"Scan Direction": "Forward", "Index Name": f"i{index}"}
    known.update({"Relation Name": table.get("of", alias), "Alias": alias})
    if query and node.operator == "IndexSeek":
        numbers = tested(query, node)
        sought = [number for number in numbers if query.is_sought(number, table_of(query, node), index)]
        others = [number for number in numbers if number not in sought]
        known.update({**conditions("Index Cond", query, sought), **conditions("Filter", query, others)})
    return known


def join_details(query, node):
    """By what the sides are joined."""
    known = {"Join Type": "Inner", "Inner Unique": False}
    if query is None:
        return known
    numbers = tested(query, node)
    by = []
    if node.operator == "MergeJoin":
        by = [merged_by(query, node)]
    elif node.operator == "HashJoin":
        by = [number for number in numbers if query.preds[number][1] == "="]
    key = "Merge Cond" if node.operator == "MergeJoin" else "Hash Cond"
    others = [number for number in numbers if number not in by]
    return {**known, **conditions(key, query, by), **conditions("Join Filter", query, others)}


def aggregate_details(query, node):
    """How groups are made, and of what; a grouping without columns is plain."""
    over_partial = any(below.operator == "PartialAgg" for kid in node.kids for _, below in kid.walk())
    stage = "Partial" if node.operator == "PartialAgg" else "Finalize" if over_partial else "Simple"
    strategy = "Sorted" if node.operator == "StreamAgg" else "Hashed"
    if query is None:
        return {"Strategy": strategy, "Partial Mode": stage}
    columns = [query.column_text(query.items[item]) for item in query.groups_by]
    strategy = strategy if columns else "Plain"
    return {"Strategy": strategy, "Partial Mode": stage, **({"Group Key": columns} if columns else {})}


def conditions(key, query, numbers):
    """The predicates of these numbers under a key, nothing where there are none."""
    texts = [f"({query.pred_text(number)})" for number in numbers]
    return {} if not texts else {key: texts[0] if len(texts) == 1 else f"({' AND '.join(texts)})"}


def json_text(plan, query):
    return json.dumps([{"Plan": node_json(query, plan.root)}], indent=2)


# ---- why this plan

RULES_OF = {
    "Scan": ["GetToScan"],
    "IndexScan": ["GetToIndexScan"],
    "Filter": ["SelectToFilter"],
    "IndexSeek": ["SelectToIndexSeek"],
    "HashJoin": ["JoinToHash", "JoinCommute", "JoinAssociate"],
    "MergeJoin": ["JoinToMerge", "JoinCommute", "JoinAssociate"],
    "LoopJoin": ["JoinToLoop", "JoinCommute", "JoinAssociate"],
    "HashAgg": ["AggToHash"],
    "StreamAgg": ["AggToStream"],
    "PartialAgg": ["SplitAgg", "PartialToHash"],
}


def rules_of(plan):
    """The rules that can be off and on which the plan may rest, in their order."""
    used = {rule for node in plan.nodes() for rule in RULES_OF.get(node.operator, [])}
    if sum(node.operator in JOINS for node in plan.nodes()) < 2:
        used.discard("JoinAssociate")
    return [rule for rule in RULES if rule in used]


def why_text(plan, asked):
    lines = [["without", "cost", "saved"]]
    for rule in rules_of(plan):
        status, text = run(asked.program, ["plan", *asked.names, *plan_words(asked, rule)])
        if not section(text, "plan"):
            lines.append([rule, text.strip().split("\n")[0] or f"status {status}", ""])
            continue
        other = read_plan(text)
        lines.append([rule, f"{other.cost:,}", f"{other.cost - plan.cost:,}", changes_text(plan, other)])
    return aligned(lines)


def changes_text(plan, other):
    """Which nodes another plan has in place of which of this one; their kinds alone where they are many."""
    gone, come = changed(plan, other, lambda node: node.name)
    if max(len(gone), len(come)) > 3:
        gone, come = changed(plan, other, lambda node: node.operator)
    if gone or come:
        return f"{counted_text(come)} in place of {counted_text(gone)}"
    same = [node.name for node in plan.nodes()] == [node.name for node in other.nodes()]
    return "the same plan" if same else "the same nodes in another order"


def changed(plan, other, told):
    """What only the one plan has, and what only the other one has, each as often as it does."""
    here, there = (collections.Counter(map(told, some.nodes())) for some in (plan, other))
    return here - there, there - here


def counted_text(names):
    return ", ".join(name if count == 1 else f"{count} {name}" for name, count in names.items()) or "nothing"


# ---- the command


def planned(asked):
    """The plan that the program makes, and its query."""
    plan = read_plan(planned_text(asked))
    query = read_query(*map(text_of_file, asked.names))
    check_nodes(query, plan)
    return plan, query


def read(asked):
    """The plan of a file, or of standard input."""
    return read_plan(text_of_file(asked.names[0]) if asked.names else sys.stdin.buffer.read().decode("latin-1"))


def options_of(words):
    options = argparse.ArgumentParser(description="explains a plan")
    options.add_argument("names", nargs="*", metavar="NAME", help="a catalogue and a query, or a file with a plan")
    options.add_argument("--json", action="store_true", help="the keys of PostgreSQL's EXPLAIN (FORMAT JSON)")
    options.add_argument("--why", action="store_true", help="what each rule of the plan saves")
    plan_options(options)
    asked = options.parse_args(words)
    if len(asked.names) > 2:
        options.error("a catalogue and a query are asked for, or one file with a plan, or none")
    if len(asked.names) < 2 and (asked.why or asked.root or asked.off):
        options.error("--why, --root and --off want a catalogue and a query")
    if asked.why and asked.json:
        options.error("--json and --why don't go together")
    return asked


def main():
    asked = options_of(sys.argv[1:])
    try:
        plan, query = planned(asked) if len(asked.names) == 2 else (read(asked), None)
        print(json_text(plan, query) if asked.json else tree_text(plan, query))
        if asked.why:
            print(f"\n{why_text(plan, asked)}")
    except (NoAnswer, NotAPlan, NotAQuery) as fault:
        sys.exit(f"tools/explain.py: {fault}")


if __name__ == "__main__":
    main()
