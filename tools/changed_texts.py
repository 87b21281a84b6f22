"""Queries, catalogues, printed plans and dumps that are changed at random, so that what reads them finds each fault."""

import json
import re

from mutate import TOKENS, changed
from plain_check import FIRST_NODE, PlanFault, judged_nodes, node_texts, read_lines

# ---- queries and catalogues

OTHER_TOKENS = [
    b"c0", b"c1", b"c9", b"t0", b"t1", b"t0.c0", b"t9.c0", b"t0 AS t1", b"t0 t", b"c0 AS n", b"n", b"n DESC", b"COUNT",
    b"COUNT(*)", b"SUM(c0)", b"GROUP BY c0", b"ORDER BY c0, c1", b"'it''s'", b"'", b"-0", b"-", b"9223372036854775807",
    b"9223372036854775808", b"5x", b"--", b"-- all\n", b";", b"!=", b"<", b"=", b"(", b"\t", b"\xc3", b"\x00",
]


def changed_query(pick, text):
    """The query with another token, with many elements more, or with changes anywhere."""
    tokens = TOKENS.findall(text)
    way = pick.random()
    if way < 0.3 or not tokens:
        return changed(pick, text, [text])
    at = pick.randrange(len(tokens))
    if way < 0.4:
        count = pick.choice([7, 8, 9, 10, 39, 40, 59, 60, 61])
        tokens[at] = pick.choice([b"c0, ", b"t0, ", b"c0 = 1 AND "]) * count + tokens[at]
    else:
        tokens[at] = pick.choice(tokens + OTHER_TOKENS)
    return b"".join(tokens)


OTHER_VALUES = [
    0, 1, -1, 2, 3, 1001, 10**12, 10**12 + 1, 2**63 - 1, -(2**63), 2**63, -(2**63) - 1, 2**64 - 1, 2**64, 1.5, True,
    None, "", "a b", "SELECT", "random", "replicated", "c0", "t0", [], {}, ["c0"], ["c0", "c0"], ["c9"], "x" * 65,
]


def changed_catalog(pick, text):
    """The catalogue with another part, or without one; sometimes with changes anywhere."""
    if pick.random() < 0.3:
        return changed(pick, text, [text])
    whole = json.loads(text)
    parts = list(parts_of(whole))
    for _ in range(pick.choice([1, 1, 2])):
        within, key = pick.choice(parts)
        if pick.random() < 0.2:
            within[key] = pick.choice(OTHER_VALUES)
        elif isinstance(within, list) and pick.random() < 0.5:
            within.append(within[key])
        elif isinstance(within[key], int):
            within[key] = pick.choice([within[key] + 1, within[key] - 1, *OTHER_VALUES])
        elif isinstance(within[key], str):
            within[key] = pick.choice([value for value in OTHER_VALUES if isinstance(value, str)])
        else:
            del within[key]
            break
    return json.dumps(whole).encode()


def parts_of(value):
    """Each part of a JSON value, as what it stands in and where it stands there."""
    places = value.items() if isinstance(value, dict) else enumerate(value) if isinstance(value, list) else []
    for key, part in places:
        yield value, key
        yield from parts_of(part)


# ---- printed plans


def changed_plan(pick, query, text):
    """The text with some changes; half of the time with the rows and costs that are then right, where that can be."""
    if pick.random() < 0.05:
        return changed(pick, text.encode(), [text.encode()]).decode("latin-1")
    lines = text.splitlines()
    for _ in range(pick.choice([1, 1, 1, 2, 3])):
        change = pick.choice(PLAN_CHANGES)
        at = pick.randrange(len(lines)) if lines else 0
        lines = change(pick, query, lines, at) if at < len(lines) else lines
    text = "".join(f"{line}\n" for line in lines)
    return priced(query, text) if pick.random() < 0.5 else text


def priced(query, text):
    """The text with the rows and costs of its nodes, where these can stand over their kids."""
    try:
        _, lines = read_lines(query, text)
        plans = [node.plan for node in judged_nodes(query, lines)]
    except PlanFault:
        return text
    output = text.split("\n")[1]
    nodes = [f"{'  ' * line.level}{line.text} rows={plan.rows} cost={plan.local}" for line, plan in zip(lines, plans)]
    return "".join(f"{line}\n" for line in [f"cost {plans[0].cost}", output, *nodes])


def depth_of(line):
    return len(line) - len(line.lstrip(" "))


def behind_block(lines, at):
    """The place behind a line and all that stands under it."""
    behind = at + 1
    while behind < len(lines) and depth_of(lines[behind]) > depth_of(lines[at]):
        behind += 1
    return behind


def dropped(pick, query, lines, at):
    return lines[:at] + lines[at + 1 :]


def doubled(pick, query, lines, at):
    return lines[: at + 1] + lines[at:]


def moved(pick, query, lines, at):
    rest = lines[:at] + lines[at + 1 :]
    to = pick.randrange(len(rest) + 1)
    return rest[:to] + [lines[at]] + rest[to:]


def indented(pick, query, lines, at):
    by = pick.choice([-2, -2, -1, 1, 2, 2, 4])
    line = " " * by + lines[at] if by > 0 else lines[at][-by:]
    return lines[:at] + [line] + lines[at + 1 :]


def renumbered(pick, query, lines, at):
    """A number of the line is another one."""
    numbers = list(re.finditer("[0-9]+", lines[at]))
    if not numbers:
        return lines
    found = pick.choice(numbers)
    value = int(found[0])
    other = pick.choice([value + 1, value - 1, 0, f"0{value}", 2 * value, 2**64 - 1, 2**64, "", -value, f"{value}.0"])
    return lines[:at] + [f"{lines[at][: found.start()]}{other}{lines[at][found.end() :]}"] + lines[at + 1 :]


def renamed(pick, query, lines, at):
    """The node is another one that the query can name."""
    if at < FIRST_NODE:
        return lines
    text, mark, numbers = lines[at].partition(" rows=")
    other = pick.choice(sorted(node_texts(query)))
    return lines[:at] + [" " * depth_of(text) + other + mark + numbers] + lines[at + 1 :]


def misspelled(pick, query, lines, at):
    """A letter of the line is another one."""
    if not lines[at]:
        return lines
    place = pick.randrange(len(lines[at]))
    other = pick.choice(list("abtTsi019 .,()=p\t\r\xe9") + ["DESC", "  "])
    return lines[:at] + [lines[at][:place] + other + lines[at][place + 1 :]] + lines[at + 1 :]


def taken_out(pick, query, lines, at):
    """The node is gone, and what stands under it moves up."""
    if at < FIRST_NODE:
        return lines
    behind = behind_block(lines, at)
    return lines[:at] + [line[2:] for line in lines[at + 1 : behind]] + lines[behind:]


def put_in(pick, query, lines, at):
    """A further node stands over the node."""
    if at < FIRST_NODE:
        return lines
    behind = behind_block(lines, at)
    enforcers = [text for text in node_texts(query) if re.match("Sort|Gather|Redistribute|Broadcast", text)]
    node = " " * depth_of(lines[at]) + pick.choice(sorted(enforcers)) + " rows=1 cost=1"
    return lines[:at] + [node] + [f"  {line}" for line in lines[at:behind]] + lines[behind:]


def exchanged(pick, query, lines, at):
    """Two nodes that stand side by side, with all under them, change places."""
    if at < FIRST_NODE:
        return lines
    middle = behind_block(lines, at)
    if middle == len(lines) or depth_of(lines[middle]) != depth_of(lines[at]):
        return lines
    behind = behind_block(lines, middle)
    return lines[:at] + lines[middle:behind] + lines[at:middle] + lines[behind:]


PLAN_CHANGES = [
    dropped, doubled, moved, indented, renumbered, renumbered, renamed, renamed, renamed, misspelled, taken_out,
    taken_out, put_in, put_in, put_in, exchanged, exchanged,
]


# ---- dumps


def changed_dump(pick, text):
    """The dump with another line in place of one, or with changes anywhere."""
    if pick.random() < 0.3:
        return changed(pick, text, [text])
    lines = text.split(b"\n")
    return b"\n".join(pick.choice(DUMP_CHANGES)(pick, None, lines, pick.randrange(len(lines))))


def line_changed(pick, query, lines, at):
    return lines[:at] + [changed(pick, lines[at], lines)] + lines[at + 1 :]


def cut_short(pick, query, lines, at):
    return lines[:at] + [lines[at][: pick.randrange(len(lines[at]) + 1)]]


def other_catalog(pick, query, lines, at):
    catalog = changed_catalog(pick, lines[5][len(b"catalog ") :]).replace(b"\n", b" ")
    return lines[:5] + [b"catalog " + catalog] + lines[6:]


def other_option(pick, query, lines, at):
    place = pick.choice([1, 2, 3, 4])
    return lines[:place] + [pick.choice(OTHER_LINES)] + lines[place + 1 :]


DUMP_CHANGES = [dropped, doubled, moved, line_changed, cut_short, other_catalog, other_catalog, other_option]
OTHER_LINES = [
    b"capacity 64", b"capacity 100", b"capacity 63", b"capacity 064", b"capacity 1048577", b"capacity +70", b"capacity",
    b"root one", b"root spread", b"root One", b"root", b"off", b"off ", b"off GetToScan",
    b"off JoinCommute+JoinAssociate", b"off JoinAssociate+JoinCommute", b"off JoinCommute+JoinCommute",
    b"off ExpandNAry", b"off JoinCommute+",
    b"print", b"print memo", b"print trace", b"print memo trace", b"print trace memo", b"print ", b"print memo\r",
]
