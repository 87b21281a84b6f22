"""Reads what the program prints, the sections of its text and the tree of a plan, and sets lines under each other."""

import re

NODE = re.compile(r"(?P<indent>(?:  )*)(?P<name>\S.*) rows=(?P<rows>\d+) cost=(?P<cost>[1-9]\d*)")
NAME = re.compile(r"(?P<operator>\w+)(?:\((?P<inside>.*)\))?")
HEADS = {"cost ": "plan", "memo groups=": "memo", "trace goals=": "trace", "by-worker": "by-worker"}


class NotAPlan(Exception):
    """A text that isn't one of a plan; the message says why."""


class Node:
    """A node of a plan: its name with its parts, the estimated rows of its group, its own cost, and the nodes below."""

    def __init__(self, name, rows, cost):
        parts = NAME.fullmatch(name)
        if parts is None:
            raise NotAPlan(f"no node has the name {name}")
        self.name, self.rows, self.cost, self.kids = name, rows, cost, []
        self.operator, self.inside = parts["operator"], parts["inside"] or ""

    def total(self):
        """What the node and all below it cost."""
        return self.cost + sum(kid.total() for kid in self.kids)

    def walk(self, depth=0):
        """The node and all below it, each with its depth, in the order of their lines."""
        yield depth, self
        for kid in self.kids:
            yield from kid.walk(depth + 1)


class Plan:
    """A plan: its cost, its output, and its root."""

    def __init__(self, cost, output, root):
        self.cost, self.output, self.root = cost, output, root

    def nodes(self):
        return [node for _, node in self.root.walk()]


def section(text, wanted):
    """The lines of a section of the program's text, none where the text doesn't have it."""
    lines, current = [], None
    for line in text.splitlines():
        current = next((name for head, name in HEADS.items() if line.startswith(head)), current)
        if current == wanted:
            lines.append(line)
    return lines


def read_plan(text):
    """The plan of the program's text."""
    lines = section(text, "plan")
    if not lines:
        raise NotAPlan(f"there is no plan in a text that begins with {text[:60].split(chr(10))[0]!r}")
    cost = re.fullmatch(r"cost (\d+)", lines[0])
    if cost is None or len(lines) < 3 or not lines[1].startswith("output "):
        raise NotAPlan("a plan has a line of its cost, one of its output, and one for each node")
    plan = Plan(int(cost[1]), lines[1][len("output ") :], read_tree(lines[2:]))
    if plan.root.total() != plan.cost:
        raise NotAPlan(f"the first line says cost {plan.cost}, and the nodes cost {plan.root.total()}")
    return plan


def read_tree(lines):
    """The root of the nodes of these lines."""
    above = []
    for line in lines:
        parts = NODE.fullmatch(line)
        if parts is None:
            raise NotAPlan(f"this is no line of a node: {line}")
        depth, node = len(parts["indent"]) // 2, Node(parts["name"], int(parts["rows"]), int(parts["cost"]))
        if depth > len(above) or (depth == 0 and above):
            raise NotAPlan(f"this line stands below no other: {line}")
        del above[depth:]
        if above:
            above[-1].kids.append(node)
        above.append(node)
    return above[0]


def aligned(lines):
    """Lines of cells as columns. The first is set left, the others right; what the head doesn't have stands behind."""
    head = len(lines[0])
    widths = [max(len(line[k]) for line in lines) for k in range(head)]

    def text(line):
        cells = [cell.rjust(width) for cell, width in zip(line, widths)]
        return "  ".join([line[0].ljust(widths[0]), *cells[1:], *line[head:]]).rstrip()

    return "\n".join(map(text, lines))
