#!/usr/bin/env python3
"""Draws what the program prints: a plan, the memo behind it, or the goals of its search.

It reads the program's text from standard input and writes a graph in Graphviz's language; with --svg it has
Graphviz's dot draw it into a file.

  plan   a box for each node with its rows and its own cost, the darker the more of the plan's cost that is.
         Rows go upwards. Where they go from segment to segment, the line is red and tells how many they are,
         and its width grows with the digits of their number.
  memo   a box for each group with its members. Members that stand on the same groups share a line of the box,
         and an arrow goes from there to each of these groups.
  trace  a box for each goal, and an arrow to each goal that it waits for.

Usage: ./orca plan CATALOG QUERY | tools/picture.py plan [--svg FILE]
       ./orca plan CATALOG QUERY --memo | tools/picture.py memo [--svg FILE]
       ./orca plan CATALOG QUERY --trace | tools/picture.py trace [--svg FILE]
"""

import argparse
import html
import math
import re
import subprocess
import sys

from printed_plan import NotAPlan, read_plan, section

GROUP = re.compile(r"group (?P<name>.*) rows=(?P<rows>\d+)")
MEMBER = re.compile(r"  (?P<operator>\w+)\((?P<inside>.*)\)")

# how far rows go in a motion
MOTIONS = {
    "Gather": "to one place",
    "GatherMerge": "to one place",
    "Redistribute": "by their hash",
    "Broadcast": "to each segment",
}

LOGICAL = ["Get", "Select", "NJoin", "Join", "Agg", "Partial"]

# a goal's kind: exploration, rules, implementation, plans
COLORS = {
    "Exp": "#dbe9f6", "ExpE": "#eef5fb", "Xf": "#f3f3f3", "Imp": "#dff0d8", "ImpE": "#f1f8ee",
    "Opt": "#fde5c8", "OptE": "#fef4e6",
}


def quoted(text):
    return '"' + text.replace("\\", "\\\\").replace('"', '\\"') + '"'


def counted(rows):
    return "1 row" if rows == 1 else f"{rows:,} rows"


def cells(texts):
    """The texts side by side, with room around each."""
    row = "".join(f'<td align="left">{text}</td>' for text in texts)
    return f'<table border="0" cellborder="0" cellspacing="0" cellpadding="4"><tr>{row}</tr></table>'


def graph(title, body, *settings):
    font = 'fontname="Arial"'
    head = [
        f"graph [{font} fontsize=13 labelloc=t label={quoted(title)}]",
        f"node [{font} fontsize=11 shape=box style=filled fillcolor=white]",
        f'edge [{font} fontsize=10 color="#606060"]',
        *settings,
    ]
    return "digraph orca {\n" + "".join(f"  {line}\n" for line in head + body) + "}\n"


# ---- a plan


def plan_graph(lines):
    plan = read_plan("\n".join(lines))
    body, above = [], []
    for number, (depth, node) in enumerate(plan.root.walk()):
        motion = MOTIONS.get(node.operator)
        body.append(plan_node(number, node, plan.cost, motion))
        del above[depth:]
        if above:
            body.append(plan_edge(*above[-1], number, node.rows))
        above.append((number, motion))
    return graph(f"cost {plan.cost:,}\noutput {plan.output}", body, "graph [ordering=out ranksep=0.35]")


def plan_node(number, node, total, motion):
    saturation = 0.75 * math.sqrt(node.cost / total)
    shape = 'style="filled,rounded" color="#b02020"' if motion else 'color="#606060"'
    label = f"<b>{html.escape(node.name)}</b><br/>{counted(node.rows)}<br/>cost {node.cost:,}"
    return f'n{number} [label=<{label}> fillcolor="0.08 {saturation:.3f} 1.000" {shape}]'


def plan_edge(above, motion, below, rows):
    """The line from a node down to a kid, on which the kid's rows go up."""
    if motion is None:
        return f"n{above} -> n{below} [dir=back]"
    width = 1 + len(str(rows))
    label = cells([f"{counted(rows)}<br/>{motion}"])
    return (
        f'n{above} -> n{below} [dir=back penwidth={width} arrowsize={0.5 + 1 / width:.2f} color="#b02020"'
        f' fontcolor="#b02020" label=<{label}>]'
    )


# ---- a memo


def memo_graph(lines):
    groups = {}
    for line in lines[1:]:
        group = GROUP.fullmatch(line)
        if group:
            members = []
            groups[group["name"]] = int(group["rows"]), members
        else:
            members.append(MEMBER.fullmatch(line).groups())
    numbers = {name: number for number, name in enumerate(groups)}
    body = []
    for name, (rows, members) in groups.items():
        lines_of_box = {}
        for operator, inside in members:
            lines_of_box.setdefault((children(operator, inside, groups), inside), []).append(operator)
        body.append(group_box(numbers[name], name, rows, lines_of_box))
        for port, (below, _) in enumerate(lines_of_box):
            body += [f"g{numbers[name]}:p{port} -> g{numbers[child]}" for child in below]
    return graph(lines[0], body, "graph [ranksep=0.6]", "node [shape=plain style=solid]")


def group_box(number, name, rows, lines_of_box):
    """The box of a group: its name, and a line for those members that have the same between their brackets."""
    head = cells([f"<b>{html.escape(name)}</b>", counted(rows)])
    rows_of_table = [f'<tr><td bgcolor="#dbe9f6">{head}</td></tr>']
    for port, ((_, inside), operators) in enumerate(lines_of_box.items()):
        names = [f"<i>{operator}</i>" if operator in LOGICAL else operator for operator in operators]
        line = cells([f"{html.escape(inside)}:", *names])
        rows_of_table.append(f'<tr><td port="p{port}" align="left">{line}</td></tr>')
    table = "".join(rows_of_table)
    return f'g{number} [label=<<table border="0" cellborder="1" cellspacing="0" cellpadding="0">{table}</table>>]'


def children(operator, inside, groups):
    """The groups on which a member stands."""
    if " | " in inside:
        return tuple(group_of_tables(side, groups) for side in inside.split(" | "))
    if operator in ("Select", "Filter"):
        return (f"Get({inside})",)
    if inside == "partial":
        return ("Partial",)
    return (input_group(groups),) if inside == "input" else ()


def group_of_tables(tables, groups):
    return next(name for name in (f"Join({tables})", f"Filter({tables})", f"Get({tables})") if name in groups)


def input_group(groups):
    """The group that is grouped, which has all tables."""
    return max((name for name in groups if "(" in name), key=lambda name: (name.count(","), name.startswith("Filter")))


# ---- a trace


def trace_graph(lines):
    goals = [line for line in lines[1:] if not line.startswith(" ")]
    numbers = {goal: number for number, goal in enumerate(goals)}
    body = [
        f'g{number} [label={quoted(goal)} fillcolor="{COLORS[goal.split()[0]]}" color="#606060"]'
        for goal, number in numbers.items()
    ]
    for line in lines[1:]:
        if line.startswith(" "):
            body.append(f"g{waiting} -> g{numbers[line.strip()]}")
        else:
            waiting = numbers[line]
    return graph(lines[0], body, "graph [ranksep=0.3 nodesep=0.15]")


def main():
    graphs = {"plan": plan_graph, "memo": memo_graph, "trace": trace_graph}
    options = argparse.ArgumentParser(description="draws what the program prints")
    options.add_argument("what", choices=graphs)
    options.add_argument("--svg", metavar="FILE", help="have dot draw it into this file")
    asked = options.parse_args()
    lines = section(sys.stdin.read(), asked.what)
    if not lines:
        sys.exit(f"tools/picture.py: there is no {asked.what} in the text")
    try:
        made = graphs[asked.what](lines)
    except NotAPlan as fault:
        sys.exit(f"tools/picture.py: {fault}")
    if asked.svg:
        try:
            subprocess.run(["dot", "-Tsvg", "-o", asked.svg], input=made, text=True, check=True)
        except FileNotFoundError:
            sys.exit("tools/picture.py: --svg needs dot, which Graphviz has")
    else:
        print(made, end="")


if __name__ == "__main__":
    main()
