"""Plans and memos that were worked out by hand, by which the plain program is checked before it judges another."""

from plain_plans import ONE, SPREAD, Query


def table(name, rows, columns, hashed=None, indexes=(), replicated=False, histograms=None):
    return {
        "name": name,
        "rows": rows,
        "columns": list(columns.items()),
        "hashed": None if hashed is None else list(hashed),
        "indexes": [list(names) for names in indexes],
        "replicated": replicated,
        "histograms": histograms or {},
    }


TWO_TABLES = [table("T1", 1000, {"a": 1000}, "a"), table("T2", 1000, {"a": 1000, "b": 500}, "a")]
RANDOM_TABLE = [table("t", 1000, {"a": 1000, "b": 10})]
INDEXED_BY_BOTH = [table("t", 1000, {"a": 1000, "b": 10}, indexes=["ab"])]
NO_PREDICATE = [table("t", 100, {"a": 100}), table("u", 10, {"b": 10})]
HASHED_TABLE = [table("t", 1000, {"a": 100, "b": 10}, "a")]
LARGE_AND_SMALL = [table("b", 100000, {"x": 1000}), table("s", 10, {"y": 10})]
INDEXED = [table("t", 1000, {"a": 100}, indexes=["a"])]
GREATEST = [table("T1", 10**12, {"a": 1}), table("T2", 10**12, {"b": 1})]

A, B = (0, "a"), (0, "b")
COUNT = ("COUNT", None)


def query(tables, output, preds=(), order=(), group_by=(), root=ONE, off=(), segments=4, version=1):
    """A query; an output without a name stands alone in the list, and so does an ascending key."""
    named = [what if isinstance(what[0], tuple) else (what, None) for what in output]
    keys = [key if isinstance(key, tuple) and isinstance(key[1], bool) else (key, False) for key in order]
    return Query(segments, tables, preds, named, keys, group_by, root, off, version)


LOOP = """cost 1253
output t.a
LoopJoin(one) rows=1000 cost=1001
  Gather rows=100 cost=201
    Scan(t) rows=100 cost=26
  Gather rows=10 cost=21
    Scan(u) rows=10 cost=4
"""


def sorted_scan(order):
    return f"""cost 5253
output t.a
GatherMerge({order}) rows=1000 cost=3001
  Sort({order}) rows=1000 cost=2001
    Scan(t) rows=1000 cost=251
"""


BY_INDEX = """cost 3502
output t.a
GatherMerge({order}) rows=1000 cost=3001
  IndexScan(t, i0) rows=1000 cost=501
"""

# what is asked, and the text of its least plan
KNOWN = [
    (
        query(TWO_TABLES, [A], [(A, "=", (1, "b"))], [A]),
        """cost 7506
output T1.a
GatherMerge(T1.a) rows=1000 cost=3001
  Sort(T1.a) rows=1000 cost=2001
    HashJoin(colocated p0) rows=1000 cost=1001
      Scan(T1) rows=1000 cost=251
      Redistribute(T2.b) rows=1000 cost=1001
        Scan(T2) rows=1000 cost=251
""",
    ),
    (
        query([table("t", 0, {"a": 1000, "b": 10})], [A]),
        """cost 2
output t.a
Gather rows=0 cost=1
  Scan(t) rows=0 cost=1
""",
    ),
    (
        query([table("t", 10, {"a": 1000, "b": 10})], [A], segments=1),
        """cost 32
output t.a
Gather rows=10 cost=21
  Scan(t) rows=10 cost=11
""",
    ),
    (query(RANDOM_TABLE, [A], order=[A]), sorted_scan("t.a")),
    (query(INDEXED_BY_BOTH, [A], order=[A]), BY_INDEX.format(order="t.a")),
    (query(INDEXED_BY_BOTH, [A], order=[A, B]), BY_INDEX.format(order="t.a, t.b")),
    (query(INDEXED_BY_BOTH, [A], order=[B]), sorted_scan("t.b")),
    (query(INDEXED_BY_BOTH, [A], order=[(A, True), B]), sorted_scan("t.a DESC, t.b")),
    (query(NO_PREDICATE, [A]), LOOP),
    (query(NO_PREDICATE, [A], off=["JoinToLoop"]), "no plan\n"),
    (query(RANDOM_TABLE, [COUNT], root=SPREAD), "no plan\n"),
    (
        query(RANDOM_TABLE, [COUNT]),
        """cost 771
output COUNT(*)
HashAgg(one) rows=1 cost=10
  Gather rows=4 cost=9
    PartialAgg rows=4 cost=501
      Scan(t) rows=1000 cost=251
""",
    ),
    (
        query(HASHED_TABLE, [A, COUNT], group_by=[A]),
        """cost 978
output t.a, COUNT(*)
Gather rows=100 cost=201
  HashAgg(hashed t.a) rows=100 cost=526
    Scan(t) rows=1000 cost=251
""",
    ),
    (
        query(HASHED_TABLE, [B, COUNT], group_by=[B, B]),
        """cost 838
output t.b, COUNT(*)
Gather rows=10 cost=21
  HashAgg(hashed t.b) rows=10 cost=24
    Redistribute(t.b) rows=40 cost=41
      PartialAgg rows=40 cost=501
        Scan(t) rows=1000 cost=251
""",
    ),
    (
        query(HASHED_TABLE, [A, (("SUM", B), "s")], group_by=[A], order=["s"]),
        """cost 1204
output t.a, SUM(t.b) AS s
GatherMerge(s) rows=100 cost=301
  Sort(s) rows=100 cost=126
    HashAgg(hashed t.a) rows=100 cost=526
      Scan(t) rows=1000 cost=251
""",
    ),
    (
        query(TWO_TABLES, [A], [(A, "=", (1, "a"))]),
        """cost 3504
output T1.a
Gather rows=1000 cost=2001
  HashJoin(colocated p0) rows=1000 cost=1001
    Scan(T1) rows=1000 cost=251
    Scan(T2) rows=1000 cost=251
""",
    ),
    (
        query(LARGE_AND_SMALL, [(0, "x")], [((0, "x"), "=", (1, "y"))]),
        """cost 52318
output b.x
Gather rows=1000 cost=2001
  HashJoin(copied) rows=1000 cost=25271
    Scan(b) rows=100000 cost=25001
    Broadcast rows=10 cost=41
      Scan(s) rows=10 cost=4
""",
    ),
    (
        query(INDEXED, [A], [(A, "=", 5)]),
        """cost 31
output t.a
Gather rows=10 cost=21
  IndexSeek(t, i0) rows=10 cost=10
""",
    ),
    (
        query(INDEXED, [A], [(A, "=", 5)], off=["SelectToIndexSeek"]),
        """cost 523
output t.a
Gather rows=10 cost=21
  Filter(t) rows=10 cost=251
    Scan(t) rows=1000 cost=251
""",
    ),
    (
        query(GREATEST, [A], [(A, "<", (1, "b"))]),
        """cost 1004500000000004
output T1.a
LoopJoin(one) rows=333333333334 cost=1000000000000000
  Gather rows=1000000000000 cost=2000000000001
    Scan(T1) rows=1000000000000 cost=250000000001
  Gather rows=1000000000000 cost=2000000000001
    Scan(T2) rows=1000000000000 cost=250000000001
""",
    ),
]


def linked(tables, links, **options):
    """Tables of 100 rows, and the query that equates these columns of them."""
    return query(
        [table(name, 100, {column: 10 for column in columns}) for name, columns in tables.items()],
        [(0, next(iter(tables.values()))[0])],
        [(left, "=", right) for left, right in links],
        **options,
    )


def star():
    tables = [table("sales", 10**7, {"id": 10**7, **{f"f{k}": 1000 for k in range(1, 8)}}, ["id"])]
    tables += [table(f"d{k}", 1000, {"id": 1000, "a": 100}, ["id"]) for k in range(1, 8)]
    preds = [((0, f"f{k}"), "=", (k, "id")) for k in range(1, 8)] + [((2, "a"), "=", 5), ((3, "a"), "<", 5)]
    return query(tables, [(1, "a"), (COUNT, "n")], preds, [("n", True), (1, "a")], [(1, "a")])


FOUR = {name: "xy" for name in "ABCD"}

# ---- catalogues of version 2

REPLICATED = [table("t", 1000, {"a": 100}, replicated=True)]
REPLICATED_INDEXED = [table("t", 1000, {"a": 100}, indexes=["a"], replicated=True)]
NO_ROWS = [table("t", 0, {"a": 100}, replicated=True)]


def replicated(text, tables=REPLICATED, output=A, **options):
    """A query over tables of which some lie on each segment, and the text of its least plan behind the cost."""
    total = sum(int(line.split("cost=")[1]) for line in text.splitlines())
    asked = query(tables, [output], version=2, **options)
    return asked, f"cost {total}\noutput {asked.output_text()}\n{text}"


SORTED_SHARE = """GatherMerge(t.a) rows=1000 cost=3001
  Sort(t.a) rows=1000 cost=2001
    Scan(t own) rows=1000 cost=251
"""
FILTERED_SHARE = """Gather rows=10 cost=21
  Filter(t) rows=10 cost=251
    Scan(t own) rows=1000 cost=251
"""
SOUGHT = "IndexSeek(t, i0 own) rows=10 cost=10\n"
COUNTED = """HashAgg(one) rows=1 cost=10
  Gather rows=4 cost=9
    PartialAgg rows=4 cost=501
      Scan(t own) rows=1000 cost=251
"""
COPIED = """HashJoin(copied) rows=1000 cost=25271
  Scan(b) rows=100000 cost=25001
  Scan(s copies) rows=10 cost=11
"""

KNOWN += [
    replicated("Scan(t one) rows=1000 cost=1001\n"),
    replicated("Scan(t own) rows=1000 cost=251\n", root=SPREAD),
    replicated("Scan(t own) rows=1000 cost=1001\n", root=SPREAD, segments=1),
    replicated(SORTED_SHARE, order=[A]),
    replicated("IndexScan(t, i0 one) rows=1000 cost=2001\n", REPLICATED_INDEXED, order=[A]),
    replicated("IndexScan(t, i0 own) rows=1000 cost=501\n", REPLICATED_INDEXED, order=[A], root=SPREAD),
    replicated(FILTERED_SHARE, preds=[(A, "=", 5)]),
    replicated(f"Gather rows=10 cost=21\n  {SOUGHT}", REPLICATED_INDEXED, preds=[(A, "=", 5)]),
    replicated(SOUGHT, REPLICATED_INDEXED, preds=[(A, "=", 5)], root=SPREAD),
    replicated(
        "Sort(t.a) rows=1000 cost=10001\n  Scan(t one) rows=1000 cost=1001\n", order=[A], segments=1
    ),
    replicated("Scan(t one) rows=0 cost=1\n", NO_ROWS),
    replicated("Scan(t own) rows=0 cost=1\n", NO_ROWS, root=SPREAD),
    replicated(COUNTED, output=COUNT),
    replicated(
        "HashAgg(one) rows=1 cost=4\n  Scan(t one) rows=1 cost=2\n",
        [table("t", 1, {"a": 100}, replicated=True)],
        COUNT,
    ),
    replicated(
        COPIED,
        [LARGE_AND_SMALL[0], table("s", 10, {"y": 10}, replicated=True)],
        (0, "x"),
        preds=[((0, "x"), "=", (1, "y"))],
        root=SPREAD,
    ),
]


def filtered(rows, preds, histogram, of=1000):
    """A query over one table of so many rows with a histogram, and so many rows that its conditions leave."""
    asked = query(
        [table("t", of, {"a": 100}, histograms={"a": histogram})], [A], [(A, *pred) for pred in preds], version=2
    )
    return asked, 16, rows


HUNDRED = (1, [(10, 100), (100, 900)])
FIVE = (0, [(9, 3), (19, 2)])
GREAT = 2**63
ONE_VALUE = (5, [(5, 7)])

# what is asked, and how many rows a group has
KNOWN_ROWS = (
    [filtered(0, [pred], HUNDRED) for pred in [("<", 1), ("<=", 0), (">", 100), (">=", 101)]]
    + [filtered(100, [pred], HUNDRED) for pred in [("<", 2), ("<=", 1), ("<", 11), ("<=", 10), ("<", 5)]]
    + [filtered(1000, [pred], HUNDRED) for pred in [("<=", 11), ("<", 12), (">", 0), ("<", 1000), ("<>", 5)]]
    + [filtered(900, [pred], HUNDRED) for pred in [(">=", 100), (">", 99), (">=", 11), (">", 10)]]
    + [filtered(10, [("=", n)], HUNDRED) for n in (5, 500)]
    + [filtered(334, [("<", "x")], HUNDRED), filtered(334, [("<", 5)], (1, [(10, 0), (20, 0)]))]
    + [filtered(90, preds, HUNDRED) for preds in [[(">", 10), ("<", 5)], [("<", 5), (">", 10)]]]
    + [filtered(2, [(">=", 10), ("<", 10)], FIVE, 3), filtered(1, [("<", 10), (">=", 10)], FIVE, 3)]
    + [filtered(rows, [pred], (0, [(9, 1), (19, 2)]), 10) for rows, pred in [(7, (">=", 10)), (4, ("<", 10))]]
    + [
        filtered(rows, [pred], (-5, [(-3, 1), (0, 1), (4, 2)]), 8)
        for rows, pred in [(2, ("<", -2)), (4, ("<=", -2)), (6, (">", -3)), (8, (">=", -3)), (4, ("<", 0))]
    ]
    + [
        filtered(rows, [(op, GREAT - 1)], (-GREAT, [(GREAT - 2, 1), (GREAT - 1, 2)]))
        for rows, op in [(667, ">="), (334, "<"), (1000, "<=")]
    ]
    + [filtered(rows, [(op, 5)], ONE_VALUE) for rows, op in [(0, "<"), (1000, "<="), (0, ">"), (1000, ">=")]]
    + [filtered(1, [("<", 5)], HUNDRED, 1), filtered(0, [("<", 0)], HUNDRED, 1), filtered(0, [("<", 5)], HUNDRED, 0)]
    + [
        filtered(rows, [pred], (0, [(10 * k, 10**12) for k in range(1, 65)]), 10**12)
        for rows, pred in [(15625000000, ("<", 11)), (984375000000, (">", 10))]
    ]
)


# what is asked, how many groups it has, and how many members they have
KNOWN_COUNTS = [
    (KNOWN[0][0], 3, 13),
    (linked(FOUR, [((k, "x"), (k + 1, "y")) for k in range(3)]), 10, 94),
    (linked(FOUR, [((0, "x"), (k, "y")) for k in range(1, 4)]), 11, 111),
    (
        linked(
            {"A": "xyw", "B": "xyz", "C": "zw"},
            [((0, "x"), (1, "x")), ((0, "y"), (1, "y")), ((1, "z"), (2, "z")), ((0, "w"), (2, "w"))],
        ),
        7,
        58,
    ),
    (star(), 139, 3739),
]
