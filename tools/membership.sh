#!/bin/sh
# Membership without a memo against the closure as it is made, at random queries.
#
# QUERIES queries of one to TABLES tables are drawn from the numbers from FIRST on: with and without predicates that
# connect their tables, with several predicates over the same two, with indexes and groupings. Of each, every word that
# a group can hold is asked of in_closure, and looked for in what plain_closure makes: with every choice of
# JoinCommute and JoinAssociate off, alone, with a drawn set of the other rules off besides, and of some queries with
# each of the other rules that can be off, and each pair of them.
#
# It proves nothing: it runs the program of membership.txt on a copy of the crates by `rt try`, compiled with checks of
# its memory. It prints what it counted, and each query and word where the two differ, and ends with status 1 if any do.
#
# Usage: tools/membership.sh [QUERIES [TABLES [FIRST]]]     8 3 1, which takes some minutes; the long form is 200 6 1
set -eu
queries=${1:-8} tables=${2:-3} first=${3:-1}
from=$(cd "$(dirname "$0")/.." && pwd)
copy=$(mktemp -d)
trap 'rm -rf "$copy"' EXIT
mkdir "$copy/crates"
below='plan_search plan_tree plan_space cost_units request_props xform_rules cardinality catalog_json'
below="$below sql_bind sql_reader query_core orca_base"
for crate in $below; do
  (cd "$from/crates" && tar cf - --exclude=out "$crate") | (cd "$copy/crates" && tar xf -)
  grep "^$crate[ :]" "$from/crates.txt" >>"$copy/crates.txt"
done
echo "membership: $below serde_json indexmap" >>"$copy/crates.txt"
cp "$from/HANDLES" "$copy"
mkdir -p "$copy/crates/membership/src"
cp "$from/tools/membership.txt" "$copy/crates/membership/src/main.rt"
cd "$copy/crates/membership"
rt try --seconds 100000 -- "$queries" "$tables" "$first"
