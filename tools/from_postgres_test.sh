#!/usr/bin/env bash
# Tests from_postgres.py on a throwaway PostgreSQL server, which listens on a socket of its own and nowhere else: loads a
# small star schema, analyses it, imports it in both versions of the catalogue, plans five queries over each, and holds the
# estimated rows of single-table conditions against those of the server's own EXPLAIN.
# Where no server is installed or starts, or where the program isn't built, what wants it is left out.
set -u
top=$(cd "$(dirname "${BASH_SOURCE[0]}")/.." && pwd)
program=$top/crates/orca/out/orca
passed=0
failed=0

end() {
  echo "$passed passed, $failed failed"
  [ "$failed" -eq 0 ]
  exit
}

check() {
  local name=$1
  shift
  if "$@"; then
    passed=$((passed + 1))
  else
    failed=$((failed + 1))
    echo "failed: $name"
  fi
}

server=$(dirname "$(readlink -f "$(command -v initdb || ls -d /usr/lib/postgresql/*/bin/initdb 2>/dev/null | tail -n 1)")" 2>/dev/null)
if [ ! -x "$server/pg_ctl" ] || ! command -v psql >/dev/null; then
  echo "left out: no PostgreSQL server is installed here"
  end
fi

folder=$(mktemp -d) || exit 1
# (the server doesn't run as root)
as_user=()
if [ "$(id -u)" -eq 0 ]; then
  as_user=(setpriv --reuid=nobody --regid=nogroup --clear-groups)
  chown nobody:nogroup "$folder"
fi
at_server() { (cd "$folder" && HOME=$folder "${as_user[@]}" "$@"); }
trap 'at_server "$server/pg_ctl" -D "$folder/data" -m immediate stop >/dev/null 2>&1; rm -rf "$folder"' EXIT
at_server "$server/initdb" -D "$folder/data" -A trust -U tester -E UTF8 --locale=C --no-sync >"$folder/log" 2>&1 &&
  at_server "$server/pg_ctl" -D "$folder/data" -o "-k $folder -c listen_addresses='' -c fsync=off" -l "$folder/server" -w start >>"$folder/log" 2>&1 || {
  cat "$folder/log" "$folder/server" >&2 2>/dev/null
  echo "left out: the PostgreSQL server that is installed here doesn't start"
  end
}
connection=(-h "$folder" -U tester -d postgres)
ask() { psql -X -q -A -t -v ON_ERROR_STOP=1 "${connection[@]}" "$@"; }

ask >"$folder/log" 2>&1 <<'SQL' || { cat "$folder/log"; check "the tables are made" false; end; }
CREATE TABLE sales (sale_id bigint PRIMARY KEY, customer_id integer, product_id integer, store_id integer, day_id integer,
  quantity integer, amount numeric(12, 2), paid text, place point);
INSERT INTO sales SELECT n, 1 + n * 7919 % 1000, 1 + n * 20011 % 500, CASE n % 2 WHEN 0 THEN 7 ELSE 1 + n % 20 END,
  1 + n % 365, 1 + n % 10, (n % 997) / 4.0, CASE n % 4 WHEN 0 THEN 'cash' ELSE 'card' END, NULL FROM generate_series(1, 100000) n;
CREATE INDEX sales_by_day ON sales (day_id);
CREATE INDEX sales_by_customer ON sales (customer_id DESC, day_id DESC);
CREATE INDEX sales_paid_in_cash ON sales (store_id) WHERE paid = 'cash';
CREATE INDEX sales_by_word ON sales (lower(paid));
CREATE INDEX sales_by_hash ON sales USING hash (product_id);
CREATE INDEX sales_up_and_down ON sales (product_id, day_id DESC);
CREATE TABLE customers (customer_id integer PRIMARY KEY, name text, country char(2), "its trade" text);
INSERT INTO customers SELECT n, 'name ' || n, chr(65 + n % 26) || 'A', 'inn' FROM generate_series(1, 1000) n;
CREATE TABLE products (product_id integer PRIMARY KEY, brand text, category text);
INSERT INTO products SELECT n, 'brand ' || n % 40, 'category ' || n % 8 FROM generate_series(1, 500) n;
CREATE TABLE stores (store_id integer PRIMARY KEY, region text, area integer);
INSERT INTO stores SELECT n, 'region ' || n % 4, 100 + n % 7 FROM generate_series(1, 20) n;
CREATE TABLE days (day_id integer PRIMARY KEY, month integer, year integer);
INSERT INTO days SELECT n, 1 + (n - 1) / 31, 2024 FROM generate_series(1, 365) n;
CREATE TABLE skewed (a integer);
INSERT INTO skewed SELECT CASE n % 2 WHEN 0 THEN 333 ELSE n % 1001 END FROM generate_series(1, 100000) n;
CREATE TABLE empty (a integer);
CREATE VIEW all_sales AS SELECT * FROM sales;
VACUUM ANALYZE;
CREATE TABLE fresh (a integer);
SQL

import() { "$top/tools/from_postgres.py" "$@" -- "${connection[@]}"; }
placed=(--segments 16 --hash sales=customer_id --hash customers=customer_id --replicate stores)
import "${placed[@]}" --version 1 >"$folder/catalog.json" 2>"$folder/told"
check "the database is imported" [ $? -eq 0 ]

cat >"$folder/wanted" <<'TEXT'
from_postgres: column sales.place is left out: the type point has no order
from_postgres: column customers.its trade is left out: the name isn't a letter or _ and then letters, digits and _
from_postgres: table all_sales is left out: a view
from_postgres: table fresh is left out: its rows aren't known before an ANALYZE
from_postgres: table sales: index sales_by_hash is left out: an index by hash gives no order
from_postgres: table sales: index sales_by_word is left out: it is over an expression
from_postgres: table sales: index sales_paid_in_cash is left out: it is partial
from_postgres: table sales: index sales_up_and_down is left out: some of its columns descend and some don't
from_postgres: table stores lies at random: version 1 has no table with a copy on each segment
TEXT
check "what can't be expressed is told" diff <(sort "$folder/told") <(sort "$folder/wanted")

# The values of an expression over the catalogue c, with its tables by name t.
value() {
  python3 - "$folder/$1" "$2" <<'PY'
import json, sys
c = json.load(open(sys.argv[1]))
t = {table["name"]: table for table in c["tables"]}
ndv = {f"{name}.{column['name']}": column["ndv"] for name in t for column in t[name]["columns"]}
histogram = lambda name, at: t[name]["columns"][at].get("histogram")
print(eval(sys.argv[2]))
PY
}
holds() { [ "$(value "$1" "$2")" = True ]; }
check "version, segments and tables" holds catalog.json \
  'c["version"] == 1 and c["segments"] == 16 and list(t) == ["customers", "days", "empty", "products", "sales", "skewed", "stores"]'
check "rows" holds catalog.json '[t[n]["rows"] for n in t] == [1000, 365, 0, 500, 100000, 100000, 20]'
check "distinct values, also where they are a share of the rows" holds catalog.json \
  '(ndv["sales.sale_id"], ndv["sales.day_id"], ndv["customers.country"], ndv["stores.area"]) == (100000, 365, 26, 7)'
check "placings" holds catalog.json 't["sales"]["distribution"] == ["customer_id"] and t["stores"]["distribution"] == "random"'
check "indexes" holds catalog.json 't["sales"]["indexes"] == [["customer_id", "day_id"], ["day_id"], ["sale_id"]]'

import "${placed[@]}" >"$folder/second.json" 2>"$folder/told"
check "what version 2 can't express is told" diff <(sort "$folder/told") <(grep -v "lies at random" "$folder/wanted" | sort)
check "a table with copies in version 2" holds second.json 'c["version"] == 2 and t["stores"]["distribution"] == "replicated"'
check "a histogram has 1 to 64 buckets that rise, with all rows" holds second.json \
  '(lambda h: 1 <= len(h["buckets"]) <= 64 and h["low"] <= h["buckets"][0]["upto"]
    and all(a["upto"] < b["upto"] for a, b in zip(h["buckets"], h["buckets"][1:]))
    and sum(b["rows"] for b in h["buckets"]) == 100000 and (h["low"], h["buckets"][-1]["upto"]) == (1, 365))(histogram("sales", 4))'
check "a common value has a bucket of its own" holds second.json \
  '(lambda h: [6, 7] == [b["upto"] for b in h["buckets"]][4:6] and 47500 <= h["buckets"][5]["rows"] <= 52500)(histogram("sales", 3))'
check "and so has one among many" holds second.json \
  '(lambda h: [(b["upto"], 47500 <= b["rows"] <= 52500) for b in h["buckets"] if b["upto"] in (332, 333)] == [(332, False), (333, True)]
    and len(h["buckets"]) <= 64)(histogram("skewed", 0))'
check "columns that aren't integers have no histogram" holds second.json 'histogram("sales", 6) is None and histogram("products", 1) is None'

import --segments 4 --hash sales=nothing >/dev/null 2>"$folder/told"
check "an unknown column to place by ends it" grep -q "nothing is no list of 1 to 8 columns of sales" "$folder/told"

# How many rows EXPLAIN expects of a condition.
explained() {
  ask -c "EXPLAIN (FORMAT JSON) SELECT * FROM $1 WHERE $2" |
    python3 -c 'import json, sys; print(json.load(sys.stdin)[0]["Plan"]["Plan Rows"])'
}

# Holds two estimates against each other: the greater is at most so many times the lesser.
agree() {
  python3 - "$@" <<'PY'
import sys
name, ours, theirs, most = sys.argv[1], *map(float, sys.argv[2:])
ratio = max(ours, theirs, 1) / max(min(ours, theirs), 1)
print(f"{name}: {ours:.0f} rows here, {theirs:.0f} by EXPLAIN, ratio {ratio:.2f}, at most {most:g}")
sys.exit(ratio > most)
PY
}

# By a histogram a range has the rows of the buckets that hold a value of it.
while IFS='|' read -r table column at above most; do
  ours=$(value second.json "sum(b['rows'] for b in histogram('$table', $at)['buckets'] if b['upto'] > $above)")
  check "the histogram's estimate of $table WHERE $column > $above" \
    agree "with histograms, $table WHERE $column > $above" "$ours" "$(explained "$table" "$column > $above")" "$most"
done <<'RANGES'
sales|day_id|4|200|1.1
sales|quantity|5|3|1.05
sales|store_id|3|6|1.05
skewed|a|0|333|1.1
stores|area|2|102|1.05
RANGES

if [ ! -x "$program" ]; then
  echo "left out: plans and estimates, since the program isn't built"
  end
fi

plan() { echo "$2" >"$folder/query.sql" && "$program" plan "$folder/$1" "$folder/query.sql" >"$folder/plan"; }
while IFS= read -r query; do
  check "a plan of $query" plan catalog.json "$query"
  check "a plan in version 2 of $query" plan second.json "$query"
done <<'QUERIES'
SELECT sale_id, amount FROM sales WHERE day_id = 150
SELECT store_id, SUM(amount) AS taken FROM sales GROUP BY store_id ORDER BY taken DESC
SELECT c.country, SUM(s.amount) AS spent FROM sales s, customers c WHERE s.customer_id = c.customer_id GROUP BY c.country
SELECT p.brand, SUM(s.amount) AS taken FROM sales s, products p WHERE s.product_id = p.product_id AND s.day_id = 150 GROUP BY p.brand
SELECT p.category, st.region, COUNT(*) AS sold FROM sales s, customers c, products p, stores st, days d WHERE s.customer_id = c.customer_id AND s.product_id = p.product_id AND s.store_id = st.store_id AND s.day_id = d.day_id AND c.country = 'AA' AND d.month = 3 GROUP BY p.category, st.region ORDER BY sold DESC
QUERIES

estimates() {
  local catalog=$1 table=$2 condition=$3 most=$4 column=$5 ours
  plan "$catalog" "SELECT $column FROM $table WHERE $condition" || return 1
  ours=$(sed -n 's/^ *\(Filter\|IndexSeek\)(.*) rows=\([0-9]*\) .*/\2/p' "$folder/plan" | head -n 1)
  agree "$table WHERE $condition" "$ours" "$(explained "$table" "$condition")" "$most"
}
# In version 2 a range is estimated by the histogram.
while IFS='|' read -r table condition most column; do
  check "the estimate in version 2 of $table WHERE $condition" \
    estimates second.json "$table" "$condition" "$most" "$column"
done <<'CONDITIONS'
sales|day_id > 200|1.1|sale_id
sales|quantity <= 3|1.05|sale_id
stores|area < 103|1.05|store_id
CONDITIONS
# An equality with an even column is estimated alike. One with a value that half of the rows have isn't: version 1 knows
# the distinct values alone. A range is a third of the rows, whatever it is.
while IFS='|' read -r table condition most column; do
  check "the estimate of $table WHERE $condition" estimates catalog.json "$table" "$condition" "$most" "$column"
done <<'CONDITIONS'
sales|day_id = 150|1.5|sale_id
sales|customer_id = 77|2|sale_id
sales|sale_id = 4711|1.5|sale_id
sales|paid = 'cash'|2.1|sale_id
sales|store_id = 7|12|sale_id
sales|quantity <= 3|1.2|sale_id
sales|day_id > 200|1.5|sale_id
sales|customer_id = 77 AND quantity = 3|2|sale_id
customers|country = 'AA'|1.2|customer_id
stores|area < 103|1.5|store_id
days|month = 3|1.5|day_id
CONDITIONS
end
