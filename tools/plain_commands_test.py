#!/usr/bin/env python3
"""Tests what the plain program answers to each command, by examples that were worked out by hand.

It needs Python alone. Whether the program answers the same is what tools/compare_commands.py asks.
"""

from plain_commands import answer
from plain_words import usage_line
from run_tests import run_tests


def column(name, ndv):
    return '{"name":"%s","ndv":%d}' % (name, ndv)


def table(name, rows, distribution, *columns, indexes=""):
    return '{"name":"%s","rows":%d,"distribution":%s,"columns":[%s]%s}' % (
        name, rows, distribution, ",".join(columns), f',"indexes":{indexes}' if indexes else "")


def catalog(*tables, version=1, segments=4):
    return '{"version":%d,"segments":%d,"tables":[%s]}' % (version, segments, ",".join(tables))


T1 = table("T1", 1000, '["a"]', column("a", 1000))
T2 = table("T2", 1000, '["a"]', column("a", 1000), column("b", 500))
TWO_TABLES = catalog(T1, T2)
JOIN = "SELECT T1.a FROM T1, T2 WHERE T1.a = T2.b ORDER BY T1.a"
JOINED = """cost 7506
output T1.a
GatherMerge(T1.a) rows=1000 cost=3001
  Sort(T1.a) rows=1000 cost=2001
    HashJoin(colocated p0) rows=1000 cost=1001
      Scan(T1) rows=1000 cost=251
      Redistribute(T2.b) rows=1000 cost=1001
        Scan(T2) rows=1000 cost=251
"""
COMMUTED = """cost 7506
output T1.a
GatherMerge(T1.a) rows=1000 cost=3001
  Sort(T1.a) rows=1000 cost=2001
    HashJoin(colocated p0) rows=1000 cost=1001
      Redistribute(T2.b) rows=1000 cost=1001
        Scan(T2) rows=1000 cost=251
      Scan(T1) rows=1000 cost=251
"""
LOOPED = """cost 259506
output T1.a
GatherMerge(T1.a) rows=1000 cost=3001
  Sort(T1.a) rows=1000 cost=2001
    LoopJoin(copied) rows=1000 cost=250001
      Scan(T1) rows=1000 cost=251
      Broadcast rows=1000 cost=4001
        Scan(T2) rows=1000 cost=251
"""
MEMO = """memo groups=3 members=13
group Get(T1) rows=1000
  Get(T1)
  Scan(T1)
group Get(T2) rows=1000
  Get(T2)
  Scan(T2)
group Join(T1, T2) rows=1000
  NJoin(T1, T2)
  Join(T1 | T2)
  Join(T2 | T1)
  HashJoin(T1 | T2)
  HashJoin(T2 | T1)
  MergeJoin(T1 | T2)
  MergeJoin(T2 | T1)
  LoopJoin(T1 | T2)
  LoopJoin(T2 | T1)
"""
DUMP = """orca dump 1
capacity 131072
root one
off
print memo
catalog {"version":2,"segments":4,"tables":[{"name":"T1","rows":1000,"distribution":["a"],"columns":[{"name":"a","ndv":1000}]},{"name":"T2","rows":1000,"distribution":["a"],"columns":[{"name":"a","ndv":1000},{"name":"b","ndv":500}]}]}
query SELECT T1.a FROM T1, T2 WHERE T1.a = T2.b ORDER BY T1.a
"""

ONE_TABLE = catalog(table("t", 1000, '"random"', column("a", 1000), column("b", 10)))
SORTED = """cost 5253
output t.a
GatherMerge(t.a) rows=1000 cost=3001
  Sort(t.a) rows=1000 cost=2001
    Scan(t) rows=1000 cost=251
"""
NO_ROWS = catalog(table("t", 0, '"random"', column("a", 1000), column("b", 10)))
TRACED = """cost 2
output t.a
Gather rows=0 cost=1
  Scan(t) rows=0 cost=1
memo groups=1 members=2
group Get(t) rows=0
  Get(t)
  Scan(t)
trace goals=8 exp=1 expe=1 xf=1 imp=1 impe=1 opt=2 opte=1
Exp Get(t)
  ExpE Get(t)
ExpE Get(t)
Xf GetToScan Get(t)
Imp Get(t)
  Exp Get(t)
  ImpE Get(t)
ImpE Get(t)
  Xf GetToScan Get(t)
Opt Get(t) [One]
  Imp Get(t)
  Opt Get(t) [Spread]
Opt Get(t) [Spread]
  Imp Get(t)
  OptE Scan(t) [Spread]
OptE Scan(t) [Spread]
"""

INDEXED = catalog(table("t", 1000, '"random"', column("a", 100), indexes='[["a"]]'))
SOUGHT = "cost 31\noutput t.a\nGather rows=10 cost=21\n  IndexSeek(t, i0) rows=10 cost=10\n"
GREATEST = catalog(*(table(name, 10**12, '"random"', column(key, 1)) for name, key in [("T1", "a"), ("T2", "b")]))
GREATEST_LOOP = """cost 1004500000000004
output T1.a
LoopJoin(one) rows=333333333334 cost=1000000000000000
  Gather rows=1000000000000 cost=2000000000001
    Scan(T1) rows=1000000000000 cost=250000000001
  Gather rows=1000000000000 cost=2000000000001
    Scan(T2) rows=1000000000000 cost=250000000001
"""
COPIES = catalog(
    table("b", 100000, '"random"', column("x", 1000)), table("s", 10, '"replicated"', column("y", 10)), version=2)
COPIED = """cost 52284
output b.x
Gather rows=1000 cost=2001
  HashJoin(copied) rows=1000 cost=25271
    Scan(b) rows=100000 cost=25001
    Scan(s copies) rows=10 cost=11
"""


def run(words, **files):
    """What is answered to the words; c, q, p, d and l are files."""
    return answer(words.split(), {name: text.encode("latin-1") for name, text in files.items()})


def without(text, place, levels):
    """The text without a line; what stands under it moves so many levels up."""
    lines = text.splitlines(keepends=True)
    depth = lambda line: len(line) - len(line.lstrip(" "))
    below = place + 1
    while below < len(lines) and depth(lines[below]) > depth(lines[place]):
        lines[below] = lines[below][2 * levels :]
        below += 1
    return "".join(lines[:place] + lines[place + 1 :])


# ---- plan


def a_query_is_planned_with_its_memo_and_its_trace():
    assert run("plan c q", c=TWO_TABLES, q=JOIN) == (0, JOINED)
    assert run("plan c q --memo", c=TWO_TABLES, q=JOIN) == (0, JOINED + MEMO)
    assert run("plan c q --trace --memo", c=NO_ROWS, q="SELECT a FROM t") == (0, TRACED)
    trace = run("plan c q --trace", c=TWO_TABLES, q=JOIN)[1][len(JOINED) :]
    assert trace.split("\n")[0] == "trace goals=66 exp=3 expe=5 xf=11 imp=3 impe=5 opt=20 opte=19"


def a_query_has_as_many_entries_as_fit():
    assert run("plan c q --capacity 79", c=TWO_TABLES, q=JOIN) == (0, JOINED)
    assert run("plan c q --capacity 78", c=TWO_TABLES, q=JOIN) == (5, "too many entries: capacity 78\n")


def queries_are_refused_with_their_cause_and_place():
    for query, line in [
        ("SELECT T1.z FROM T1", "unknown column at 7"),
        ("SELECT a FROM T1, T2", "ambiguous column at 7"),
        ("SELECT T2.b FROM T2 GROUP BY T2.a", "not grouped at 7"),
        ("SELECT T1.a FROM T1, T2 AS T1", "name twice at 27"),
        ("SELECT x FROM T9", "unknown table at 14"),
        ("SELECT a FROM T1 WHERE a = 'x", "token at 27"),
        ("SELECT a FROM t,t,t,t,t,t,t,t,t,t,t", "too many tables at 34"),
        ("", "grammar at 0"),
        (";", "grammar at 0"),
        (" " * 65537, "too long"),
        ("SELECT a FROM t WHERE a = 9223372036854775808", "token at 26"),
        ("SELECT a FROM t WHERE a = -9223372036854775808", "token at 26"),
        ("SELECT a FROM t WHERE a = 5x", "token at 26"),
        ("SELECT \xc3 FROM t", "not ASCII at 7"),
        ("SELECT 'a\xff' FROM t", "grammar at 7"),
        ("SELECT a\0 FROM t", "token at 8"),
        ("SELECT a FROM t;;", "grammar at 16"),
        ("SELECT a FROM t GROUP", "grammar at 21"),
        ("SELECT COUNT(*) FROM t WHERE", "grammar at 28"),
        ("SELECT a FROM t WHERE 5 = a", "grammar at 22"),
        ("SELECT a b FROM t", "grammar at 9"),
        ("SELECT a FROM count(", "grammar at 14"),
        ("SELECT a FROM t ORDER BY a, a, a, a, a, a, a, a, a", "too many order keys at 49"),
        ("SELECT a AS n, a AS n FROM T1", "name twice at 20"),
    ]:
        assert run("plan c q", c=TWO_TABLES, q=query) == (3, f"query refused: {line}\n"), query
    assert run("plan c q", c=ONE_TABLE, q="SELECT a FROM t WHERE a = 'it''s'")[0] == 0


def more_lists_and_orders_than_numbers_are_refused():
    columns = [column(f"c{k}", 10) for k in range(30)]
    equal = " AND ".join(f"a.c{k} = b.c{k}" for k in range(30))
    other = table("b", 10, '"random"', *columns)
    hashed = catalog(table("a", 10, '["c0","c1"]', *columns), other)
    spread = catalog(table("a", 10, '"random"', *columns), other)
    query = f"SELECT a.c0 FROM a, b WHERE {equal}"
    assert run("plan c q", c=hashed, q=query) == (3, "query refused: too many hashed lists: 61\n")
    query += " ORDER BY a.c0, a.c1"
    assert run("plan c q", c=spread, q=query) == (3, "query refused: too many orders: 61\n")


def catalogues_are_refused_with_their_cause_and_path():
    nested = TWO_TABLES[:-1] + ',"x":' + "[" * 200 + "]" * 200 + "}"
    for text, line in [
        (TWO_TABLES.replace(':1,"seg', ':3,"seg'), "version 3"),
        (TWO_TABLES.replace("1000}", "1000000000001}", 1), "range at /tables/0/columns/0/ndv"),
        (TWO_TABLES.replace("T2", "T1"), "twice at /tables/1/name"),
        (TWO_TABLES.replace('["a"]', '["c"]', 1), "unknown column at /tables/0/distribution/0"),
        (nested, "not JSON"),
        (TWO_TABLES[: TWO_TABLES.index("1", 40)], "not JSON"),
        (TWO_TABLES.replace(":1000", ':"1000"', 1), "shape at /tables/0/rows"),
        ("", "not JSON"),
        ("\xff", "not JSON"),
        ("[]", "shape at "),
        ("{}", "shape at /version"),
        ('{"version":1.5}', "shape at /version"),
        ('{"version":1,"segments":0,"tables":[]}', "range at /segments"),
        (ONE_TABLE.replace('"t"', '"a b"'), "shape at /tables/0/name"),
        (" " * 1048577, "too long"),
        (ONE_TABLE.replace("random", "replicated"), "shape at /tables/0/distribution"),
    ]:
        assert run("plan c q", c=text, q=JOIN) == (4, f"catalog refused: {line}\n"), line
    assert run("plan c q", c='{"comment":"x",' + TWO_TABLES[1:], q=JOIN) == (0, JOINED)


def histograms_are_read_and_their_ends_rise():
    bound = '"histogram":{"low":1,"buckets":[{"upto":10,"rows":100},{"upto":%d,"rows":900}]}'
    entry = '{"name":"a","ndv":100,%s}'
    told = lambda upto, version: catalog(table("t", 1000, '"random"', entry % (bound % upto)), version=version)
    query = "SELECT a FROM t WHERE a < 5"
    assert run("plan c q", c=told(100, 2), q=query)[1].startswith("cost 703\n")
    assert run("plan c q", c=told(100, 1), q=query)[1].startswith("cost 1171\n")
    line = "catalog refused: range at /tables/0/columns/0/histogram/buckets/1/upto\n"
    assert run("plan c q", c=told(10, 2), q=query) == (4, line)


def the_first_fault_decides():
    assert run("plan c q") == (6, "read fault: c\n")
    assert run("plan c q", c="[]") == (4, "catalog refused: shape at \n")
    assert run("plan c q", c=TWO_TABLES) == (6, "read fault: q\n")
    assert run("check c q p", c=TWO_TABLES, q=";") == (3, "query refused: grammar at 0\n")
    assert run("check c q p", c=TWO_TABLES, q=JOIN) == (6, "read fault: p\n")
    assert run("batch c l", c=TWO_TABLES) == (6, "read fault: l\n")
    assert run("replay d") == (6, "read fault: d\n")


# ---- words


def words_that_are_no_command_get_the_usage_line():
    for words in [
        "", "plan c", "plan c q --workers 0", "plan c q --workers 65", "plan c q --workers=4", "plan c q --workers 04",
        "plan c q --off ExpandNAry", "plan c q --memo --memo", "plan c q --capacity 63", "gen 1 9 chain", "--help",
        "stages c q", "stages c q none", "stages c q all,", "stages c q all@0", "stages c q all@100000000000000001",
        "stages c q all,all,all,all,all,all,all,all,all", "stages c q all+JoinToHash", "stages c q all --off SplitAgg",
        "check c q", "check c q p --memo", "check c q p --workers 2", "check c q p --capacity 64",
        "dump c q --workers 2", "dump c q --by-worker", "dump c", "replay d --memo", "replay d --capacity 64",
        "replay", "replay d e", "batch c l --workers 64 --capacity 131073", "batch c l --by-worker", "batch c",
        "batch c -l",
    ]:
        assert run(words) == (2, usage_line()), words
    assert answer(["plan", "c", ""], {}) == (2, usage_line())


def words_that_are_commands_are_read():
    for words in [
        "plan --memo c --root spread q --off JoinCommute+GetToScan", "batch c l --workers 64 --capacity 131072",
        "stages c q all@100000000000000000,JoinToHash+JoinToMerge@1,all", "replay --workers 8 d",
        "check c --off SplitAgg q p --root one", "dump c q --capacity 64 --trace --memo",
    ]:
        assert run(words)[0] == 6, words


# ---- stages


def stages_run_up_to_one_that_is_enough():
    first, second = "stage 0 cost 259506\n", "stage 1 cost 7506\n"
    for stages, text in [
        ("JoinToHash+JoinToMerge@7000,all", "stages ran=2\n" + first + second + JOINED),
        ("JoinToHash+JoinToMerge@300000,all", "stages ran=1\n" + first + LOOPED),
        ("all@7506,JoinToHash", "stages ran=2\nstage 0 cost 7506\nstage 1 cost 9257\n" + JOINED),
        ("all@7507,JoinToHash", "stages ran=1\nstage 0 cost 7506\n" + JOINED),
    ]:
        assert run(f"stages c q {stages}", c=TWO_TABLES, q=JOIN) == (0, text), stages


def a_stage_may_have_no_plan():
    lines = "stages ran=1\nstage 0 no plan\n"
    assert run("stages c q JoinToHash+JoinToMerge+JoinToLoop", c=TWO_TABLES, q=JOIN) == (1, lines + "no plan\n")
    lines = "stages ran=2\nstage 0 no plan\nstage 1 cost 7506\n"
    assert run("stages c q GetToScan,all", c=TWO_TABLES, q=JOIN) == (0, lines + JOINED)


def a_stage_with_too_many_entries_ends_all():
    line = "too many entries: capacity 78\n"
    assert run("stages c q all --capacity 78", c=TWO_TABLES, q=JOIN) == (5, line)
    assert run("stages c q JoinCommute,all --capacity 78", c=TWO_TABLES, q=JOIN) == (5, line)
    enough = run("stages c q JoinCommute@10000,all --capacity 78", c=TWO_TABLES, q=JOIN)
    assert enough == (0, "stages ran=1\nstage 0 cost 7506\n" + JOINED)


# ---- check


def checked(text, options="", c=TWO_TABLES, q=JOIN):
    return run(f"check c q p {options}", c=c, q=q, p=text)


def a_valid_plan_is_priced():
    assert checked(JOINED) == checked(COMMUTED) == (0, "valid cost 7506\n")
    assert checked(LOOPED) == (0, "valid cost 259506\n")
    assert checked(COPIED, c=COPIES, q="SELECT b.x FROM b, s WHERE b.x = s.y") == (0, "valid cost 52284\n")
    assert checked(GREATEST_LOOP, c=GREATEST, q="SELECT T1.a FROM T1, T2 WHERE T1.a < T2.b")[0] == 0


def a_plan_that_is_refused_has_its_line():
    for text, options, line in [
        (COMMUTED, "--off JoinCommute", "member at line 4"),
        (JOINED.replace("cost 7506", "cost 7507"), "", "number at line 0"),
        (JOINED.replace("cost=2001", "cost=2000"), "", "number at line 3"),
        (without(JOINED, 3, 1), "", "needs at line 2"),
        (without(JOINED, 6, 1), "", "needs at line 4"),
        (without(JOINED, 7, 1), "", "kids at line 6"),
        (without(JOINED, 2, 1), "", "root request"),
        ("no plan\n", "", "form at line 0"),
        ("", "", "form at line 0"),
        ("cost 1\n", "", "form at line 1"),
        ("cost 1\noutput T1.a\n", "", "form at line 2"),
        ("cost 1\noutput T1.b\n", "", "form at line 1"),
        (JOINED[:-1], "", "form at line 7"),
        (JOINED + "\n", "", "form at line 8"),
        (JOINED.replace("cost 7506", "cost 07506"), "", "form at line 0"),
        (JOINED.replace("rows=1000 cost=2001", "rows=18446744073709551616 cost=2001"), "", "form at line 3"),
        (JOINED.replace("rows=1000 cost=2001", "rows=18446744073709551615 cost=2001"), "", "number at line 3"),
        (JOINED.replace("    Hash", "      Hash"), "", "form at line 4"),
        (JOINED.replace("    Hash", "   Hash"), "", "form at line 4"),
        (JOINED.replace("p0", "p1"), "", "form at line 4"),
        (JOINED.replace("Scan(T2)", "Scan(t2)"), "", "form at line 7"),
        (JOINED.replace("Scan(T2)", "Scan(T2 own)"), "", "form at line 7"),
        (JOINED.replace("Scan(T2)", "Filter(T2)"), "", "kids at line 7"),
        (JOINED.replace("Scan(T2)", "Scan(T1)"), "", "kids at line 4"),
        (JOINED.replace("HashJoin(colocated p0)", "HashAgg(one)"), "", "kids at line 4"),
        ("cost 251\noutput T1.a\nScan(T1) rows=1000 cost=251\n", "", "kids at line 2"),
        (JOINED, "--root spread", "root request"),
        (" " * 1048577, "", "too long"),
    ]:
        assert checked(text, options) == (9, f"plan refused: {line}\n"), line


def a_plan_of_more_than_a_thousand_nodes_is_too_large():
    def gathered(count):
        sorts = "".join("  " * k + "Sort(t.a) rows=1000 cost=2001\n" for k in range(1, count - 1))
        scan = "  " * (count - 1) + "Scan(t) rows=1000 cost=251\n"
        total = 3001 + 2001 * (count - 2) + 251
        return f"cost {total}\noutput t.a\nGatherMerge(t.a) rows=1000 cost=3001\n{sorts}{scan}"

    query = "SELECT a FROM t ORDER BY a"
    assert checked(gathered(1000), c=ONE_TABLE, q=query) == (0, f"valid cost {3001 + 2001 * 998 + 251}\n")
    assert checked(gathered(1001), c=ONE_TABLE, q=query) == (9, "plan refused: too large: 1001\n")
    assert checked(gathered(1001) + "x\n", c=ONE_TABLE, q=query) == (9, "plan refused: form at line 1003\n")


def what_no_rule_makes_is_no_member():
    counted = "cost 1\noutput COUNT(*)\n{}(one) rows=1 cost=1\n  Gather rows=1 cost=1\n    Scan(t) rows=1 cost=1\n"
    for text, query, line in [
        (counted.format("StreamAgg"), "SELECT COUNT(*) FROM t", "member at line 2"),
        (counted.format("HashAgg"), "SELECT COUNT(*) FROM t", "number at line 0"),
        ("cost 1\noutput t.a\nGather rows=1 cost=1\n  IndexSeek(t, i0) rows=1 cost=1\n",
         "SELECT a FROM t WHERE a <> 5", "member at line 3"),
        ("cost 1\noutput t.a\nGather rows=1 cost=1\n  IndexSeek(t, i0) rows=1 cost=1\n", "SELECT a FROM t",
         "kids at line 3"),
    ]:
        assert checked(text, c=INDEXED, q=query) == (9, f"plan refused: {line}\n"), line


def a_list_outside_of_group_by_is_no_need_that_is_met():
    text = "cost 1\noutput COUNT(*)\nGather rows=1 cost=1\n  HashAgg(hashed T1.a) rows=1 cost=1\n"
    text += "    Scan(T1) rows=1 cost=1\n"
    assert checked(text, q="SELECT COUNT(*) FROM T1") == (9, "plan refused: needs at line 3\n")


# ---- dump and replay


def a_dump_has_what_the_query_needs():
    more = catalog(table("other", 5, '"random"', column("x", 5)), T1, T2)
    assert run("dump c q --memo", c=TWO_TABLES, q=JOIN) == (0, DUMP)
    assert run("dump c q --memo", c=more, q=JOIN) == (0, DUMP)
    assert run("dump c q", c=TWO_TABLES, q="SELECT T1.z FROM T1") == (3, "query refused: unknown column at 7\n")
    options = "--off SplitAgg+JoinCommute --root spread --capacity 64 --trace --memo"
    lines = run(f"dump c q {options}", c=INDEXED, q="SELECT a\nFROM t\n")[1].split("\n")
    assert lines[:5] == ["orca dump 1", "capacity 64", "root spread", "off JoinCommute+SplitAgg", "print memo trace"]
    assert lines[5] == "catalog " + catalog(
        table("t", 1000, '"random"', column("a", 100), indexes='[["a"]]'), version=2)
    assert lines[6:] == ["query SELECT a", "FROM t", "", ""]


def a_dump_says_copies_and_histograms():
    entry = '{"name":"a","ndv":100,"histogram":{"low":-5,"buckets":[{"upto":10,"rows":100},{"upto":100,"rows":900}]}}'
    whole = catalog(table("t", 1000, '"replicated"', entry), version=2)
    assert run("dump c q", c=whole, q="SELECT a FROM t")[1].split("\n")[5] == f"catalog {whole}"
    assert "histogram" not in run("dump c q", c=catalog(table("t", 5, '["a"]', entry)), q="SELECT a FROM t")[1]


def a_dump_is_replayed_as_it_was_planned():
    assert run("replay d", d=DUMP) == run("replay d --workers 8", d=DUMP) == (0, JOINED + MEMO)
    for whole, query, text in [
        (INDEXED, "SELECT a FROM t WHERE a = 5", SOUGHT),
        (GREATEST, "SELECT T1.a FROM T1, T2 WHERE T1.a < T2.b", GREATEST_LOOP),
        (COPIES, "SELECT b.x FROM b, s WHERE b.x = s.y", COPIED),
    ]:
        dumped = run("dump c q", c=whole, q=query)[1]
        assert run("replay d", d=dumped) == run("plan c q", c=whole, q=query) == (0, text)


def a_broken_dump_has_its_first_line():
    for text, line in [
        (DUMP.replace("dump 1", "dump 2"), "line 0"),
        ("", "line 0"),
        ("orca dump 1", "line 0"),
        ("orca dump 1\n", "line 1"),
        (DUMP.replace("131072", "63"), "line 1"),
        (DUMP.replace("131072", "0131072"), "line 1"),
        (DUMP.replace("root one", "root two"), "line 2"),
        (DUMP.replace("off\n", "off \n"), "line 3"),
        (DUMP.replace("off\n", "off SplitAgg+JoinCommute\n"), "line 3"),
        (DUMP.replace("off\n", "off JoinCommute+JoinCommute\n"), "line 3"),
        (DUMP.replace("print memo", "print trace memo"), "line 4"),
        (DUMP.replace("catalog {", "catalog{"), "line 5"),
        (DUMP.replace("query S", "querys"), "line 6"),
        (DUMP[:-1], "line 6"),
        (DUMP[: DUMP.index("query")], "line 6"),
        (DUMP + " " * 1179649, "too long"),
    ]:
        assert run("replay d", d=text) == (10, f"dump refused: {line}\n"), line


def a_dump_that_is_whole_may_say_what_is_refused():
    assert run("replay d", d=DUMP.replace('"version":2', '"version":3')) == (4, "catalog refused: version 3\n")
    assert run("replay d", d=DUMP.replace("T2.b", "T2.c")) == (3, "query refused: unknown column at 37\n")
    assert run("replay d", d=DUMP.replace("131072", "78")) == (5, "too many entries: capacity 78\n")


# ---- batch


def each_line_of_a_list_is_planned():
    text = "batch queries=2\nquery 0 status 0\n" + SORTED
    text += "query 1 status 3\nquery refused: unknown column at 7\n"
    for listed in ["SELECT a FROM t ORDER BY a\nSELECT z FROM t", "SELECT a FROM t ORDER BY a\nSELECT z FROM t\n"]:
        for workers in (1, 8):
            assert run(f"batch c l --workers {workers}", c=ONE_TABLE, l=listed) == (0, text)


def a_list_may_be_empty_and_so_may_a_line():
    assert run("batch c l", c=ONE_TABLE, l="") == (0, "batch queries=0\n")
    refused = "query 0 status 3\nquery refused: grammar at 0\n"
    assert run("batch c l", c=ONE_TABLE, l="\n") == (0, "batch queries=1\n" + refused)


def a_list_may_be_too_long():
    many = "batch refused: too many queries\n"
    assert run("batch c l", c=ONE_TABLE, l="\n" * 1001) == (11, many)
    assert run("batch c l --capacity 67109", c=ONE_TABLE, l="\n" * 1000) == (11, many)
    assert run("batch c l --capacity 67108", c=ONE_TABLE, l="\n" * 1000)[0] == 0
    assert run("batch c l", c=ONE_TABLE, l=" " * 1048577) == (11, "batch refused: too long\n")


def a_line_may_have_too_many_entries():
    ended = run("batch c l --capacity 64", c=TWO_TABLES, l=f"{JOIN}\nSELECT a FROM T1")[1]
    assert ended.startswith("batch queries=2\nquery 0 status 5\ntoo many entries: capacity 64\nquery 1 status 0\n")


TESTS = [
    a_query_is_planned_with_its_memo_and_its_trace,
    a_query_has_as_many_entries_as_fit,
    queries_are_refused_with_their_cause_and_place,
    more_lists_and_orders_than_numbers_are_refused,
    catalogues_are_refused_with_their_cause_and_path,
    histograms_are_read_and_their_ends_rise,
    the_first_fault_decides,
    words_that_are_no_command_get_the_usage_line,
    words_that_are_commands_are_read,
    stages_run_up_to_one_that_is_enough,
    a_stage_may_have_no_plan,
    a_stage_with_too_many_entries_ends_all,
    a_valid_plan_is_priced,
    a_plan_that_is_refused_has_its_line,
    a_plan_of_more_than_a_thousand_nodes_is_too_large,
    what_no_rule_makes_is_no_member,
    a_list_outside_of_group_by_is_no_need_that_is_met,
    a_dump_has_what_the_query_needs,
    a_dump_says_copies_and_histograms,
    a_dump_is_replayed_as_it_was_planned,
    a_broken_dump_has_its_first_line,
    a_dump_that_is_whole_may_say_what_is_refused,
    each_line_of_a_list_is_planned,
    a_list_may_be_empty_and_so_may_a_line,
    a_list_may_be_too_long,
    a_line_may_have_too_many_entries,
]

if __name__ == "__main__":
    run_tests(TESTS, [])
