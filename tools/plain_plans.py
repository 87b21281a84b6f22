"""A plain program that finds the text of a query's least plan, written on its own.

It knows the definitions of docs/ and nothing of the program's code. It finds the least plan in two ways:

  by requests   the least plan for each group and request, from those that its nodes ask for
  by listing    all valid plan trees up to a number of nodes, redundant sorts and motions included,
                and of these the least in cost and then in code
"""

import collections
import functools
import json

MOST_ROWS = 10**12
MOST_COST = 10**15
ONE, SPREAD, COPIES, RANDOM = ("One",), ("Spread",), ("Copies",), ("Random",)
PARTIAL, AGG = 2048, 2049

RULES = [
    "ExpandNAry", "JoinCommute", "JoinAssociate", "SplitAgg",
    "GetToScan", "GetToIndexScan", "SelectToFilter", "SelectToIndexSeek",
    "JoinToHash", "JoinToMerge", "JoinToLoop", "AggToHash", "AggToStream", "PartialToHash",
]

OPERATORS = [
    "Get", "Scan", "IndexScan", "Select", "Filter", "IndexSeek", "NJoin", "Join",
    "HashJoin", "MergeJoin", "LoopJoin", "Agg", "HashAgg", "StreamAgg", "Partial", "PartialAgg",
]

# a group expression: its operator, the number of its index (or 0), and its children's keys
Member = collections.namedtuple("Member", "op index children")

# how a physical expression works in a mode. A distribution is (given, asked of the left child), AS_LEFT or
# AS_SPREAD; an order is (given, asked of the left child) or AS_LEFT; right is what is asked of the right child
Line = collections.namedtuple("Line", "mode name dist order right")
AS_LEFT, AS_SPREAD = "as the left child's", "as the left child's, which is spread"


def divide(a, b):
    """The quotient, rounded up."""
    return -(-a // b)


def tables_of(key):
    return 1 << key if key < 16 else 1 << (key - 16) if key < 32 else key - 1024


def is_spread(dist):
    return dist[0] in ("Spread", "Hashed", "Random")


def meets(given, asked):
    return is_spread(given) if asked == SPREAD else given == asked


def begins(order, wanted):
    return order[: len(wanted)] == wanted


def is_column(side):
    """Whether the side of a comparison is a column; else it is a literal."""
    return isinstance(side, tuple)


def literal_text(literal):
    return str(literal) if isinstance(literal, int) else "'" + literal.replace("'", "''") + "'"


def column_of(table, name, ndv):
    """The column as a catalogue has it."""
    histogram = table.get("histograms", {}).get(name)
    if histogram is None:
        return {"name": name, "ndv": ndv}
    low, buckets = histogram
    buckets = [{"upto": upto, "rows": rows} for upto, rows in buckets]
    return {"name": name, "ndv": ndv, "histogram": {"low": low, "buckets": buckets}}


class Query:
    """A query and what is derived from it.

    tables    each with name, rows, columns (name and ndv), hashed (names, or None) and indexes (lists of names);
              where it is another one's under an alias, of is that one's name. In version 2 replicated says whether
              all rows lie on each segment, and histograms has for some of its columns (low, [(upto, rows), ..])
    preds     (column, comparison, column or literal); a column is (table, name), a literal a number or a text
    output    (what, output name or None), where what is a column or (function, column or None for a star)
    order     (column or output name, whether it descends)
    group_by  columns
    root      where the result is to be, ONE or SPREAD
    off       rules that are off
    version   the version of the catalogue
    """

    def __init__(self, segments, tables, preds, output, order=(), group_by=(), root=ONE, off=(), version=1):
        self.segments, self.tables, self.preds = segments, tables, list(preds)
        self.version = version
        self.output, self.order, self.group_by = list(output), list(order), list(group_by)
        self.root, self.off = root, set(off)
        self.aggs = [(what, name) for what, name in self.output if isinstance(what[0], str)]
        self.grouped = bool(self.group_by or self.aggs)
        self.number_items()
        self.find_links()
        self.number_lists_and_orders()
        self.found = None

    # ---- numbers

    def number_items(self):
        place = {(t, name): k for t, table in enumerate(self.tables) for k, (name, _) in enumerate(table["columns"])}
        self.values = {(t, name): ndv for t, table in enumerate(self.tables) for name, ndv in table["columns"]}
        self.histograms = {
            (t, name): histogram
            for t, table in enumerate(self.tables)
            for name, histogram in table.get("histograms", {}).items()
        }
        used = {what for what, _ in self.output if not isinstance(what[0], str)} | set(self.group_by)
        used |= {column for (_, column), _ in self.aggs if column is not None}
        used |= {key for key, _ in self.order if not isinstance(key, str)}
        used |= {side for left, _, right in self.preds for side in (left, right) if is_column(side)}
        for t, table in enumerate(self.tables):
            for names in [table["hashed"] or [], *table["indexes"]]:
                used |= {(t, name) for name in names}
        self.items = sorted(used, key=lambda item: (item[0], place[item]))
        self.number = {item: k for k, item in enumerate(self.items)}
        self.table_of = [t for t, _ in self.items]
        self.conditions = [
            (self.number[left], op, self.number[right] if is_column(right) else None) for left, op, right in self.preds
        ]
        self.groups_by = list(dict.fromkeys(self.number[column] for column in self.group_by))
        # the items of the output: aggregates stand behind the columns, in the order of the text
        places = iter(range(len(self.items), len(self.items) + len(self.aggs)))
        self.results = [next(places) if isinstance(what[0], str) else self.number[what] for what, _ in self.output]
        named = {name: item for (_, name), item in zip(self.output, self.results) if name is not None}
        seen, wanted = set(), []
        for key, descends in self.order:
            item = named[key] if isinstance(key, str) else self.number[key]
            if item not in seen:
                seen.add(item)
                wanted.append(2 * item + descends)
        self.wanted = tuple(wanted)

    def find_links(self):
        self.links = []
        component = list(range(len(self.tables)))
        for left, _, right in self.conditions:
            if right is not None and self.table_of[left] != self.table_of[right]:
                a, b = self.table_of[left], self.table_of[right]
                self.links.append((a, b))
                joined = {component[a], component[b]}
                component = [min(joined) if c in joined else c for c in component]
        self.links += [(0, t) for t in range(1, len(self.tables)) if component[t] == t]

    def number_lists_and_orders(self):
        sides = [
            side
            for left, op, right in self.conditions
            if op == "=" and right is not None and self.table_of[left] != self.table_of[right]
            for side in (left, right)
        ]
        listed = lambda t, names: tuple(self.number[(t, name)] for name in names)
        self.placing = [
            None if table["hashed"] is None else listed(t, table["hashed"]) for t, table in enumerate(self.tables)
        ]
        self.indexes = [
            [tuple(2 * item for item in listed(t, names)) for names in table["indexes"]]
            for t, table in enumerate(self.tables)
        ]
        self.group_order = tuple(2 * item for item in self.groups_by)
        lists = {placing for placing in self.placing if placing is not None} | {(side,) for side in sides}
        orders = {(2 * side,) for side in sides}
        if self.groups_by:
            lists.add(tuple(self.groups_by))
            orders.add(self.group_order)
        if self.wanted:
            orders.add(self.wanted)
        by_length = lambda elements: (len(elements), elements)
        self.lists = {items: k for k, items in enumerate(sorted(lists, key=by_length))}
        self.orders = {elements: k for k, elements in enumerate([()] + sorted(orders, key=by_length))}
        self.items_of = {k: items for items, k in self.lists.items()}

    # ---- groups, by their keys

    def is_own(self, condition, t):
        left, _, right = condition
        return self.table_of[left] == t and (right is None or self.table_of[right] == t)

    def top(self, mask):
        if mask & (mask - 1):
            return 1024 + mask
        t = mask.bit_length() - 1
        return 16 + t if any(self.is_own(condition, t) for condition in self.conditions) else t

    def input_key(self):
        return self.top((1 << len(self.tables)) - 1)

    def root_key(self):
        return AGG if self.grouped else self.input_key()

    def has(self, key, item):
        """Whether the item is one of the group's."""
        if key == AGG:
            return item in self.groups_by or item >= len(self.items)
        if key == PARTIAL:
            return item in self.groups_by
        return item < len(self.items) and bool(tables_of(key) >> self.table_of[item] & 1)

    def list_lies_in(self, key, number):
        return all(self.has(key, item) for item in self.items_of[number])

    def order_lies_in(self, key, order):
        return all(self.has(key, element // 2) for element in order)

    def connected(self, mask):
        reached = mask & -mask
        while True:
            more = reached
            for a, b in self.links:
                if mask >> a & 1 and mask >> b & 1 and (more >> a & 1 or more >> b & 1):
                    more |= 1 << a | 1 << b
            if more == reached:
                return reached == mask
            reached = more

    def linked(self, one, other):
        return any(one >> a & 1 and other >> b & 1 or one >> b & 1 and other >> a & 1 for a, b in self.links)

    def factor(self, place):
        """The factor of the condition at this place: so many of so many rows are left."""
        left, op, right = self.conditions[place]
        if op == "<>":
            return 1, 1
        if op == "=":
            sides = [left] if right is None else [left, right]
            return 1, max([1] + [self.values[self.items[side]] for side in sides])
        histogram = self.histograms.get(self.items[left])
        literal = self.preds[place][2]
        if histogram is None or not isinstance(literal, int):
            return 1, 3
        met = rows = 0
        low, buckets = histogram
        for upto, count in buckets:
            least, most = (low, literal) if op in ("<", "<=") else (literal, upto)
            met += count if least < most or least == most and op in ("<=", ">=") else 0
            rows += count
            low = upto + 1
        return (met, rows) if rows else (1, 3)

    @functools.lru_cache(None)
    def rows(self, key):
        if key in (PARTIAL, AGG):
            return self.grouped_rows(key)
        if key < 16:
            return self.tables[key]["rows"]
        count, so_far = 1, 0
        for t in range(len(self.tables)):
            if tables_of(key) >> t & 1:
                count = min(MOST_ROWS, count * self.tables[t]["rows"])
                so_far |= 1 << t
                for place, (left, _, right) in enumerate(self.conditions):
                    over = {self.table_of[side] for side in (left, right) if side is not None}
                    if t in over and all(so_far >> u & 1 for u in over):
                        part, whole = self.factor(place)
                        count = divide(count * part, whole)
        return count

    def grouped_rows(self, key):
        if not self.groups_by:
            return 1 if key == AGG else self.segments
        if key == PARTIAL:
            return min(self.rows(self.input_key()), min(MOST_ROWS, self.segments * self.rows(AGG)))
        count = 1
        for item in self.groups_by:
            count = min(MOST_ROWS, count * max(1, self.values[self.items[item]]))
        return min(self.rows(self.input_key()), count)

    def crossing(self, left, right):
        """The equalities between a column of one group and one of the other, with the left column first."""
        for k, (a, op, b) in enumerate(self.conditions):
            if op == "=" and b is not None:
                if self.has(left, a) and self.has(right, b):
                    yield k, a, b
                elif self.has(left, b) and self.has(right, a):
                    yield k, b, a

    # ---- the members of the groups: the least set with the origins and the rules' results

    def origin(self, key):
        if key == AGG:
            return Member("Agg", 0, (self.input_key(),))
        if key == PARTIAL:
            return Member("Partial", 0, (self.input_key(),))
        if key < 16:
            return Member("Get", 0, ())
        if key < 32:
            return Member("Select", 0, (key - 16,))
        return Member("NJoin", 0, ())

    def is_sought(self, number, t, index):
        """Whether the index finds the rows of a predicate, which compares its first column with a literal."""
        left, op, right = self.conditions[number]
        return right is None and op in ("=", "<", "<=", ">", ">=") and 2 * left == self.indexes[t][index][0]

    def is_usable(self, t, index):
        """Whether the index may be sought by a predicate of the table with a literal."""
        return any(self.is_sought(number, t, index) for number in range(len(self.conditions)))

    def rule_results(self, key, member):
        """Each rule with each of its results for the member."""
        op, _, children = member
        if op == "Get":
            yield "GetToScan", Member("Scan", 0, ())
            for k in range(len(self.indexes[key])):
                yield "GetToIndexScan", Member("IndexScan", k, ())
        elif op == "Select":
            yield "SelectToFilter", Member("Filter", 0, children)
            for k in range(len(self.indexes[key - 16])):
                if self.is_usable(key - 16, k):
                    yield "SelectToIndexSeek", Member("IndexSeek", k, ())
        elif op == "NJoin":
            mask = key - 1024
            last = max(t for t in range(10) if mask >> t & 1 and self.connected(mask ^ 1 << t))
            yield "ExpandNAry", Member("Join", 0, (self.top(mask ^ 1 << last), self.top(1 << last)))
        elif op == "Join":
            left, right = children
            yield "JoinCommute", Member("Join", 0, (right, left))
            if left >= 1024:
                for other in self.members[left]:
                    if other.op == "Join":
                        a, b = other.children
                        if self.linked(tables_of(b), tables_of(right)):
                            both = self.top(tables_of(b) | tables_of(right))
                            yield "JoinAssociate", Member("Join", 0, (a, both))
            if any(True for _ in self.crossing(left, right)):
                yield "JoinToHash", Member("HashJoin", 0, children)
                yield "JoinToMerge", Member("MergeJoin", 0, children)
            yield "JoinToLoop", Member("LoopJoin", 0, children)
        elif op == "Agg":
            if children == (self.input_key(),):
                yield "SplitAgg", Member("Agg", 0, (PARTIAL,))
            yield "AggToHash", Member("HashAgg", 0, children)
            if self.groups_by:
                yield "AggToStream", Member("StreamAgg", 0, children)
        elif op == "Partial":
            yield "PartialToHash", Member("PartialAgg", 0, children)

    @property
    def members(self):
        """The members of each group; they are found when they are first asked for."""
        if self.found is None:
            self.find_members()
        return self.found

    def find_members(self):
        self.found = {self.root_key(): {self.origin(self.root_key())}}
        grows = True
        while grows:
            grows = False
            for key in list(self.members):
                for member in list(self.members[key]):
                    for child in member.children:
                        if child not in self.members:
                            self.members[child] = {self.origin(child)}
                            grows = True
                    for rule, result in list(self.rule_results(key, member)):
                        if rule not in self.off and result not in self.members[key]:
                            self.members[key].add(result)
                            grows = True

    # ---- the table of modes

    def lines(self, key, member):
        """The lines of a physical expression; none for a logical one."""
        op, index, children = member
        if op in ("Scan", "IndexScan", "IndexSeek"):
            t = key % 16
            placing = self.placing[t]
            placed = RANDOM if placing is None else ("Hashed", self.lists[placing])
            read = self.tables[t]["name"] + ("" if op == "Scan" else f", i{index}")
            order = () if op == "Scan" else self.indexes[t][index]
            ways = [("", placed)]
            if self.tables[t].get("replicated"):
                ways = [(" own", RANDOM), (" one", ONE), (" copies", COPIES)]
            return [
                Line(mode, f"{op}({read}{way})", (dist, None), (order, None), None)
                for mode, (way, dist) in enumerate(ways)
            ]
        if op == "Filter":
            return [Line(0, f"Filter({self.tables[key - 16]['name']})", AS_LEFT, AS_LEFT, None)]
        if op == "PartialAgg":
            return [Line(0, "PartialAgg", AS_SPREAD, ((), ()), None)]
        if op in ("HashAgg", "StreamAgg"):
            return self.group_lines(op, [number for number in self.items_of if self.list_lies_in(key, number)])
        if op in ("HashJoin", "MergeJoin", "LoopJoin"):
            return self.join_lines(op, *children)
        return []

    def group_lines(self, op, numbers):
        """The lines of an aggregation at one place, and of one on rows hashed by each of these lists."""
        order = () if op == "HashAgg" else self.group_order
        return [Line(0, f"{op}(one)", (ONE, ONE), (order, order), None)] + [
            Line(128 + h, f"{op}(hashed {self.list_text(h)})", (("Hashed", h),) * 2, (order, order), None)
            for h in numbers
        ]

    def join_lines(self, op, left, right):
        at_one, none = (ONE, ONE), ((), ())
        if op == "LoopJoin":
            return [
                Line(0, "LoopJoin(one)", at_one, AS_LEFT, (ONE, ())),
                Line(64, "LoopJoin(copied)", AS_SPREAD, AS_LEFT, (COPIES, ())),
            ]
        on = lambda column: ("Hashed", self.lists[(column,)])
        together = [(k, a, b, (on(a), on(a)), on(b)) for k, a, b in self.crossing(left, right)]
        if op == "HashJoin":
            return [
                Line(0, "HashJoin(one)", at_one, none, (ONE, ())),
                Line(64, "HashJoin(copied)", AS_SPREAD, none, (COPIES, ())),
            ] + [Line(128 + k, f"HashJoin(colocated p{k})", at, none, (other, ())) for k, _, _, at, other in together]
        by = lambda column: (2 * column,)
        lines = []
        for k, a, b, at, other in together:
            lines.append(Line(k, f"MergeJoin(one p{k})", at_one, (by(a), by(a)), (ONE, by(b))))
            lines.append(Line(64 + k, f"MergeJoin(copied p{k})", AS_SPREAD, (by(a), by(a)), (COPIES, by(b))))
            lines.append(Line(128 + k, f"MergeJoin(colocated p{k})", at, (by(a), by(a)), (other, by(b))))
        return lines

    # ---- costs

    def share(self, key, dist):
        return divide(self.rows(key), self.segments) if is_spread(dist) else self.rows(key)

    def native_cost(self, op, key, dist, kids):
        out = self.share(key, dist)
        left, right = [self.share(kid.key, kid.dist) for kid in kids] + [0] * (2 - len(kids))
        cost = {
            "Scan": out + 1,
            "IndexScan": 2 * out + 1,
            "IndexSeek": 3 * out + 1,
            "Filter": left + 1,
            "HashJoin": left + 2 * right + out + 1,
            "MergeJoin": left + right + out + 1,
            "LoopJoin": left * right + 1,
            "HashAgg": 2 * left + out + 1,
            "StreamAgg": left + 1,
            "PartialAgg": 2 * left + 1,
        }
        return min(MOST_COST, cost[op])

    # ---- texts

    def column_text(self, column):
        return f"{self.tables[column[0]]['name']}.{column[1]}"

    def what_text(self, what):
        """A column, or an aggregate."""
        if not isinstance(what[0], str):
            return self.column_text(what)
        function, column = what
        return f"{function}({'*' if column is None else self.column_text(column)})"

    def element_text(self, element):
        item = element // 2
        known = item < len(self.items)
        name = self.column_text(self.items[item]) if known else self.aggs[item - len(self.items)][1]
        return name + (" DESC" if element % 2 else "")

    def order_text(self, order):
        return ", ".join(map(self.element_text, order))

    def list_text(self, number):
        return ", ".join(self.column_text(self.items[item]) for item in self.items_of[number])

    def output_text(self):
        return ", ".join(self.what_text(what) + (f" AS {name}" if name else "") for what, name in self.output)

    def pred_text(self, number):
        """A predicate as it is written in SQL."""
        left, comparison, right = self.preds[number]
        value = self.column_text(right) if is_column(right) else literal_text(right)
        return f"{self.column_text(left)} {comparison} {value}"

    def sql(self):
        tables = [f"{table['of']} AS {table['name']}" if "of" in table else table["name"] for table in self.tables]
        text = f"SELECT {self.output_text()} FROM " + ", ".join(tables)
        column = self.column_text
        if self.preds:
            text += " WHERE " + " AND ".join(map(self.pred_text, range(len(self.preds))))
        if self.group_by:
            text += " GROUP BY " + ", ".join(map(column, self.group_by))
        if self.order:
            text += " ORDER BY " + ", ".join(
                (key if isinstance(key, str) else column(key)) + (" DESC" if down else "") for key, down in self.order
            )
        return text

    def catalog(self):
        tables = [
            {
                "name": table["name"],
                "rows": table["rows"],
                "distribution": "replicated" if table.get("replicated") else table["hashed"] or "random",
                "columns": [column_of(table, name, ndv) for name, ndv in table["columns"]],
                "indexes": table["indexes"],
            }
            for table in self.tables
            if "of" not in table
        ]
        return json.dumps({"version": self.version, "segments": self.segments, "tables": tables})

    def words(self):
        """The words of the command line behind the two names."""
        root = ["--root", "spread"] if self.root == SPREAD else []
        return root + (["--off", "+".join(sorted(self.off, key=RULES.index))] if self.off else [])


# ---- plans


class Plan:
    def __init__(self, query, key, number, name, local, dist, order, kids):
        self.key, self.name, self.local, self.kids = key, name, local, kids
        self.dist, self.order = dist, order
        self.rows = query.rows(key)
        self.cost = local + sum(kid.cost for kid in kids)
        self.code = (number,) + tuple(n for kid in kids for n in kid.code)

    def rank(self):
        return self.cost, self.code

    def lines(self, depth=0):
        yield f"{'  ' * depth}{self.name} rows={self.rows} cost={self.local}"
        for kid in self.kids:
            yield from kid.lines(depth + 1)


def text_of(query, plan):
    """The text of a plan, or that there is none."""
    if plan is None:
        return "no plan\n"
    return "\n".join([f"cost {plan.cost}", f"output {query.output_text()}", *plan.lines()]) + "\n"


def word_of(key, member):
    op, index, children = member
    field = lambda k: children[k] + 1 if k < len(children) else 0
    return key * 2**36 + (OPERATORS.index(op) + 1) * 2**31 + index * 2**26 + field(0) * 2**13 + field(1)


def native(query, key, member, line, kids):
    dist = kids[0].dist if isinstance(line.dist, str) else line.dist[0]
    order = kids[0].order if isinstance(line.order, str) else line.order[0]
    local = query.native_cost(member.op, key, dist, kids)
    return Plan(query, key, 2**56 + word_of(key, member) * 2**8 + line.mode, line.name, local, dist, order, kids)


def gather(query, kid):
    return Plan(query, kid.key, 1, "Gather", 2 * query.rows(kid.key) + 1, ONE, (), (kid,))


def broadcast(query, kid):
    return Plan(query, kid.key, 2, "Broadcast", 4 * query.rows(kid.key) + 1, COPIES, (), (kid,))


def sort(query, order, kid):
    name, share = f"Sort({query.order_text(order)})", query.share(kid.key, kid.dist)
    cost = share * share.bit_length() + 1
    return Plan(query, kid.key, 64 + query.orders[order], name, cost, kid.dist, order, (kid,))


def gather_merge(query, order, kid):
    name = f"GatherMerge({query.order_text(order)})"
    return Plan(query, kid.key, 128 + query.orders[order], name, 3 * query.rows(kid.key) + 1, ONE, order, (kid,))


def redistribute(query, number, kid):
    name, cost = f"Redistribute({query.list_text(number)})", 4 * query.share(kid.key, SPREAD) + 1
    return Plan(query, kid.key, 192 + number, name, cost, ("Hashed", number), (), (kid,))


# ---- the memo


def tables_text(query, mask):
    return ", ".join(table["name"] for t, table in enumerate(query.tables) if mask >> t & 1)


def group_text(query, key):
    if key in (PARTIAL, AGG):
        return "Partial" if key == PARTIAL else "Agg"
    return f"{'Get' if key < 16 else 'Filter' if key < 32 else 'Join'}({tables_text(query, tables_of(key))})"


def member_text(query, key, member):
    op, index, children = member
    if key in (PARTIAL, AGG):
        return f"{op}({'partial' if children[0] == PARTIAL else 'input'})"
    if len(children) == 2:
        return f"{op}({' | '.join(tables_text(query, tables_of(child)) for child in children)})"
    number = f", i{index}" if op in ("IndexScan", "IndexSeek") else ""
    return f"{op}({tables_text(query, tables_of(key))}{number})"


def memo_text(query):
    """The groups by their keys, each with its members by their words."""
    lines = [f"memo groups={len(query.members)} members={sum(map(len, query.members.values()))}"]
    for key in sorted(query.members):
        lines.append(f"group {group_text(query, key)} rows={query.rows(key)}")
        members = sorted(query.members[key], key=lambda member: word_of(key, member))
        lines += [f"  {member_text(query, key, member)}" for member in members]
    return "\n".join(lines) + "\n"


# ---- requests: a distribution and an order


def fits(query, key, dist, order):
    """Whether the list and the order of a request lie in the group."""
    return (dist[0] != "Hashed" or query.list_lies_in(key, dist[1])) and query.order_lies_in(key, order)


def below_enforcers(dist, order):
    """The requests over which an enforcer gives this one."""
    if order:
        return [(dist, ())] + ([(SPREAD, order)] if dist == ONE else [])
    return [] if dist == SPREAD else [(SPREAD, ())]


def enforced(query, dist, order, kid, below):
    """The enforcer that gives a request over a plan for the request below it."""
    if order:
        return sort(query, order, kid) if below == (dist, ()) else gather_merge(query, order, kid)
    if dist == ONE:
        return gather(query, kid)
    return broadcast(query, kid) if dist == COPIES else redistribute(query, dist[1], kid)


def serves(line, dist, order):
    """Whether the line can give what is asked for."""
    if line.dist == AS_SPREAD and not is_spread(dist):
        return False
    if not isinstance(line.dist, str) and not meets(line.dist[0], dist):
        return False
    return isinstance(line.order, str) or begins(line.order[0], order)


def alternatives(query, key, member, dist, order):
    """The lines of a member that serve the request, each with what is asked of the children."""
    for line in query.lines(key, member):
        if not serves(line, dist, order):
            continue
        if not member.children:
            yield line, []
            continue
        of_left = (
            dist if isinstance(line.dist, str) else line.dist[1],
            order if isinstance(line.order, str) else line.order[1],
        )
        if fits(query, member.children[0], *of_left):
            yield line, [of_left] + ([line.right] if line.right else [])


# ---- the least plan by requests


def least_by_requests(query):
    def natives(key, dist, order):
        for member in query.members[key]:
            for line, asked in alternatives(query, key, member, dist, order):
                kids = tuple(best(child, *request) for child, request in zip(member.children, asked))
                if all(kid is not None for kid in kids):
                    yield native(query, key, member, line, kids)

    def enforcers(key, dist, order):
        for below in below_enforcers(dist, order):
            kid = best(key, *below)
            if kid is not None:
                yield enforced(query, dist, order, kid, below)

    @functools.lru_cache(None)
    def best(key, dist, order):
        plans = [*enforcers(key, dist, order), *natives(key, dist, order)]
        return min(plans, key=Plan.rank, default=None)

    return best(query.root_key(), query.root, query.wanted)


# ---- the least plan by listing all of them


def suits(line, kids):
    """Whether the plans below give what the line needs."""
    if not kids:
        return True
    left = kids[0]
    if line.dist == AS_SPREAD and not is_spread(left.dist):
        return False
    if not isinstance(line.dist, str) and not meets(left.dist, line.dist[1]):
        return False
    if not isinstance(line.order, str) and not begins(left.order, line.order[1]):
        return False
    return len(kids) == 1 or (meets(kids[1].dist, line.right[0]) and begins(kids[1].order, line.right[1]))


def least_by_listing(query, most):
    """The least of all valid plans of at most so many nodes, and how many plans of all groups were listed."""
    by_size = {size: {key: [] for key in query.members} for size in range(1, most + 1)}

    def kids_of(size, children):
        """All kids of so many nodes together, one for each child."""
        if len(children) == 1:
            for kid in by_size.get(size, {}).get(children[0], []):
                yield (kid,)
        elif len(children) == 2:
            for part in range(1, size):
                for left in by_size[part][children[0]]:
                    for right in by_size[size - part][children[1]]:
                        yield left, right
        elif size == 0:
            yield ()

    def all_enforced(kid):
        for order in query.orders:
            if order and query.order_lies_in(kid.key, order):
                yield sort(query, order, kid)
                if is_spread(kid.dist) and begins(kid.order, order):
                    yield gather_merge(query, order, kid)
        if is_spread(kid.dist):
            yield gather(query, kid)
            yield broadcast(query, kid)
            for number in query.items_of:
                if query.list_lies_in(kid.key, number):
                    yield redistribute(query, number, kid)

    for size in range(1, most + 1):
        for key, members in query.members.items():
            plans = by_size[size][key]
            for member in members:
                for line in query.lines(key, member):
                    for kids in kids_of(size - 1, member.children):
                        if suits(line, kids):
                            plans.append(native(query, key, member, line, kids))
            for kid in by_size.get(size - 1, {}).get(key, []):
                plans.extend(all_enforced(kid))
    of_root = [plan for plans in by_size.values() for plan in plans[query.root_key()]]
    suiting = [plan for plan in of_root if meets(plan.dist, query.root) and begins(plan.order, query.wanted)]
    count = sum(len(plans) for of_groups in by_size.values() for plans in of_groups.values())
    return min(suiting, key=Plan.rank, default=None), count
