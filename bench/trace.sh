#!/usr/bin/env bash
# Times the trace on a chain, a star and cliques of tables, joined as `ti.f = tj.id` where ti comes first and in the
# order of `t0.id`, and on a star of eight tables with two filters and a grouping (examples/star.sql). Prints how many
# goals there are, the lines and bytes of the text, the least time of several runs of the plan alone and of the plan
# with the trace, and what the trace took for a line of it.
#
# With 8 tables the goals are: chain 3,492, star 18,074, clique 365,682, grouped star 29,877.
#
# Usage: bench/trace.sh [RUNS [GREATEST NUMBER OF TABLES]]     3 8; a run of the clique of 8 takes some ten seconds
runs=${1:-3}
greatest=${2:-8}
. "$(dirname "${BASH_SOURCE[0]}")/timing.sh"

# whether the shape joins the tables
is_joined() {
  case $1 in
    chain) [ "$3" -eq $(($2 + 1)) ] ;;
    star) [ "$2" -eq 0 ] ;;
    clique) true ;;
  esac
}

# a catalogue in which every other table is hashed on its first column
write() {
  local tables=$1 a placing comma=''
  printf '{"version":1,"segments":4,"tables":['
  for ((a = 0; a < tables; a++)); do
    placing='"random"'
    [ $((a % 2)) -ne 0 ] || placing='["id"]'
    printf '%s{"name":"t%d","rows":%d,"distribution":%s,' "$comma" $a $((1000 * (a + 1))) "$placing"
    printf '"columns":[{"name":"id","ndv":%d},{"name":"f","ndv":%d}]}' $((1000 * (a + 1))) $((100 + a))
    comma=,
  done
  printf ']}'
} >"$folder/catalog"

ask() {
  local shape=$1 tables=$2 a b word=WHERE
  printf 'SELECT t0.id FROM t0'
  for ((a = 1; a < tables; a++)); do printf ', t%d' $a; done
  for ((a = 0; a < tables; a++)); do
    for ((b = a + 1; b < tables; b++)); do
      if is_joined "$shape" $a $b; then
        printf ' %s t%d.f = t%d.id' $word $a $b
        word=AND
      fi
    done
  done
  printf ' ORDER BY t0.id'
} >"$folder/query"

# the line of a query
measure() {
  local shape=$1 tables=$2 goals lines bytes plan trace
  shift 2
  "$program" plan --trace --capacity 1048576 "$@" | sed -n '/^trace /,$p' >"$folder/trace"
  goals=$(sed -n '1s/^trace goals=\([0-9]*\).*/\1/p' "$folder/trace")
  lines=$(wc -l <"$folder/trace")
  bytes=$(wc -c <"$folder/trace")
  plan=$(least "$program" plan --capacity 1048576 "$@")
  trace=$(least "$program" plan --trace --capacity 1048576 "$@")
  printf '%-8s %6d %8s %9s %10s %12s %12s %10s\n' "$shape" "$tables" "$goals" "$lines" "$bytes" \
    "$(milliseconds "$plan")" "$(milliseconds "$trace")" $(((trace - plan) * 1000 / lines))
}

build || exit 1
printf '%-8s %6s %8s %9s %10s %12s %12s %10s\n' shape tables goals lines bytes 'plan, ms' 'trace, ms' 'ns a line'
for shape in chain star; do
  write "$greatest"
  ask "$shape" "$greatest"
  measure "$shape" "$greatest" "$folder/catalog" "$folder/query"
done
for ((tables = 2; tables <= greatest; tables++)); do
  write "$tables"
  ask clique "$tables"
  measure clique "$tables" "$folder/catalog" "$folder/query"
done
measure grouped 8 "$top/examples/star.json" "$top/examples/star.sql"
