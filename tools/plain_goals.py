"""The goals of a query's search and the text of its trace, as a part of the plain program (plain_plans.py)."""

import collections

from plain_plans import COPIES, ONE, RULES, SPREAD, alternatives, below_enforcers, group_text, member_text, word_of

LOGICAL = ["Get", "Select", "NJoin", "Join", "Agg", "Partial"]
EXPLORING = RULES[:4]
KINDS = ["Exp", "ExpE", "Xf", "Imp", "ImpE", "Opt", "OptE"]

# a goal: its kind, the key of its group, its member or None, and its rule, its request (a distribution and an order)
# or None
Goal = collections.namedtuple("Goal", "kind key member about")


def rules_for(query, key, member):
    """The rules that apply to a member. Reassociation applies to a join over a join, whatever it results in."""
    rules = {rule for rule, _ in query.rule_results(key, member)}
    if member.op == "Join" and member.children[0] >= 1024:
        rules.add("JoinAssociate")
    return rules - query.off


def of_members(query, kind, key):
    """The goal of this kind for each logical member of the group."""
    return {Goal(kind, key, member, None) for member in query.members[key] if member.op in LOGICAL}


def of_children(kind, member):
    """The goal of this kind for the group of each child."""
    return {Goal(kind, child, None, None) for child in member.children}


def of_rules(query, key, member, explores):
    """The goal of each rule that explores or implements the member."""
    rules = rules_for(query, key, member)
    return {Goal("Xf", key, member, rule) for rule in rules if (rule in EXPLORING) == explores}


def children(query, goal):
    """The goals that a goal waits for."""
    kind, key, member, about = goal
    if kind == "Exp":
        return of_members(query, "ExpE", key)
    if kind == "ExpE":
        return of_children("Exp", member) | of_rules(query, key, member, True)
    if kind == "Xf":
        return {Goal("Exp", member.children[0], None, None)} if about == "JoinAssociate" else set()
    if kind == "Imp":
        return {Goal("Exp", key, None, None)} | of_members(query, "ImpE", key)
    if kind == "ImpE":
        return of_children("Imp", member) | of_rules(query, key, member, False)
    if kind == "Opt":
        return {Goal("Imp", key, None, None)} | choices(query, key, about)
    return {
        Goal("Opt", child, None, request)
        for _, asked in alternatives(query, key, member, *about)
        for child, request in zip(member.children, asked)
    }


def choices(query, key, request):
    """What may stand at the root of a plan for a request: a member that can serve it, or an enforcer over another."""
    natives = {
        Goal("OptE", key, member, request)
        for member in query.members[key]
        if any(True for _ in alternatives(query, key, member, *request))
    }
    return natives | {Goal("Opt", key, None, below) for below in below_enforcers(*request)}


def goals_of(query):
    """The least set that has the goal of the root's request and with a goal its children: each with its children."""
    found = {}
    open_goals = [Goal("Opt", query.root_key(), None, (query.root, query.wanted))]
    while open_goals:
        goal = open_goals.pop()
        if goal not in found:
            found[goal] = children(query, goal)
            open_goals += found[goal]
    return found


def count_entries(query):
    """How many members and goals a query has."""
    return sum(map(len, query.members.values())) + len(goals_of(query))


# ---- the numbers of goals, by which they are in order


def request_code(query, dist, order):
    where = 3 + dist[1] if dist[0] == "Hashed" else [ONE, SPREAD, COPIES].index(dist)
    return where * 64 + query.orders[order]


def goal_word(query, goal):
    kind, key, member, about = goal
    subject = key if member is None else word_of(key, member)
    last = 0
    if kind == "Xf":
        last = RULES.index(about) + 1
    elif about is not None:
        last = request_code(query, *about)
    return 2**63 + KINDS.index(kind) * 2**60 + subject * 2**12 + last


# ---- the trace


def request_text(query, dist, order):
    where = f"Hashed({query.list_text(dist[1])})" if dist[0] == "Hashed" else dist[0]
    return f"[{where}; {query.order_text(order)}]" if order else f"[{where}]"


def goal_text(query, goal):
    kind, key, member, about = goal
    subject = group_text(query, key) if member is None else member_text(query, key, member)
    if kind == "Xf":
        return f"Xf {about} {subject}"
    return f"{kind} {subject}" + (f" {request_text(query, *about)}" if about is not None else "")


def trace_text(query):
    """The goals in the order of their words, each with its children."""
    goals = goals_of(query)
    in_order = lambda some: sorted(some, key=lambda goal: goal_word(query, goal))
    counts = collections.Counter(goal.kind for goal in goals)
    lines = [f"trace goals={len(goals)} " + " ".join(f"{kind.lower()}={counts[kind]}" for kind in KINDS)]
    for goal in in_order(goals):
        lines.append(goal_text(query, goal))
        lines += [f"  {goal_text(query, child)}" for child in in_order(goals[goal])]
    return "\n".join(lines) + "\n"
