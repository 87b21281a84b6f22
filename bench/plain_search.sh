#!/bin/bash
# Builds the program of plain_search.txt, which plans by the plain search, as the file PROGRAM: on a copy of the crates
# below it, so that the program in crates/ stands on no plain search.
# Usage: bench/plain_search.sh PROGRAM, and then OTHER=PROGRAM bench/plans.sh
set -eu
program=$1
from=$(cd "$(dirname "$0")/.." && pwd)
copy=$(mktemp -d)
trap 'rm -rf "$copy"' EXIT
mkdir "$copy/crates"
below='plan_report plan_lines plan_search best_answers goal_space query_text plan_tree plan_space cost_units request_props xform_rules'
below="$below cardinality catalog_json sql_bind sql_reader query_core orca_io orca_base"
for crate in $below; do
  (cd "$from/crates" && tar cf - --exclude=out "$crate") | (cd "$copy/crates" && tar xf -)
  grep "^$crate[ :]" "$from/crates.txt" >>"$copy/crates.txt"
done
echo "plain_search: $below serde_json indexmap" >>"$copy/crates.txt"
cp "$from/HANDLES" "$copy"
mkdir -p "$copy/crates/plain_search/src"
cp "$from/bench/plain_search.txt" "$copy/crates/plain_search/src/main.rt"
(cd "$copy/crates/plain_search" && rt run -- plan "$from/examples/t.json" "$from/examples/q.sql" >/dev/null)
cp "$copy/crates/plain_search/out/plain_search" "$program"
