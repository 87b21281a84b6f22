#!/usr/bin/env bash
# Finds the least stack with which the program prints what it prints with 8 MiB, in steps of 4 KiB, for catalogues that
# nest as deep as they may and deeper, for plans of many levels, and for the check of a plan that has as many nodes as
# it may, nearly each below the one before; by one worker and by four, whose threads have a stack of the same size.
# Prints beside it how many levels the plan has, and what the least stack is for words that are no command, which is
# what it takes to start.
# Usage: bench/stack.sh
runs=1
. "$(dirname "${BASH_SOURCE[0]}")/timing.sh"

# a catalogue of a table t, with a key that is passed over and whose lists nest so deep that the whole has these levels
nested() {
  local lists=$(($1 - 1)) i
  printf '{"x":'
  for ((i = 0; i < lists; i++)); do printf '['; done
  for ((i = 0; i < lists; i++)); do printf ']'; done
  printf ',%s' "$(tail -c +2 "$top/examples/t.json")"
}

# ten tables in a chain, each joined to the next one by columns by which neither is placed
chain() {
  local t
  printf '{"version":1,"segments":4,"tables":['
  for t in {0..9}; do
    [ "$t" = 0 ] || printf ','
    printf '{"name":"t%d","rows":%d,"distribution":["h"],"columns":[{"name":"h","ndv":10},{"name":"a","ndv":%d},{"name":"b","ndv":%d}]}' \
      "$t" $((1000 * (t + 1))) $((100 * (t + 1))) $((100 * (t + 2)))
  done
  printf ']}'
}

chain_query() {
  local t
  printf 'SELECT t0.a, COUNT(*) AS n FROM t0'
  for t in {1..9}; do printf ', t%d' "$t"; done
  printf ' WHERE t0.h = 5'
  for t in {0..8}; do printf ' AND t%d.b = t%d.a AND t%d.h < 7' "$t" $((t + 1)) $((t + 1)); done
  printf ' GROUP BY t0.a ORDER BY n DESC, t0.a'
}

# the plan of examples/join.sql, with so many sorts in the place of one
sorted_plan() {
  local sorts=$1 i below=$((2 * $1 + 2))
  printf 'cost %d\noutput T1.a\nGatherMerge(T1.a) rows=1000 cost=3001\n' $((2001 * sorts + 5505))
  for ((i = 1; i <= sorts; i++)); do printf '%*sSort(T1.a) rows=1000 cost=2001\n' $((2 * i)) ''; done
  printf '%*sHashJoin(colocated p0) rows=1000 cost=1001\n' "$below" ''
  printf '%*sScan(T1) rows=1000 cost=251\n' $((below + 2)) ''
  printf '%*sRedistribute(T2.b) rows=1000 cost=1001\n' $((below + 2)) ''
  printf '%*sScan(T2) rows=1000 cost=251\n' $((below + 4)) ''
}

# whether the words have the same answer with so many KiB of stack
fits() {
  local size=$1
  shift
  [ "$(ulimit -S -s "$size" && "$program" "$@" 2>&1 && echo ended; echo $?)" = "$wanted" ]
}

# the least stack in KiB, by halving
least_stack() {
  local low=0 high=2048 middle
  wanted=$(ulimit -S -s 8192 && "$program" "$@" 2>&1 && echo ended; echo $?)
  while [ $((high - low)) -gt 1 ]; do
    middle=$(((low + high) / 2))
    if fits $((4 * middle)) "$@"; then high=$middle; else low=$middle; fi
  done
  echo $((4 * high))
}

# how many levels the plan has that is printed or checked
levels() {
  if [ "$1" = check ]; then cat "$4"; else "$program" "$@"; fi | awk '/ rows=.* cost=/ && !/^group/ { match($0, /^ */); if (RLENGTH / 2 + 1 > most) most = RLENGTH / 2 + 1 } END { print most + 0 }'
}

build || exit 1
nested 127 >"$folder/nested_127"
nested 128 >"$folder/nested_128"
head -c 1048576 /dev/zero | tr '\0' '[' >"$folder/brackets"
chain >"$folder/chain.json"
chain_query >"$folder/chain.sql"
sorted_plan 1 >"$folder/one_sort"
sorted_plan 995 >"$folder/995_sorts"
q=$top/examples/q.sql
join="$top/examples/two_tables.json $top/examples/join.sql"

printf '%-34s %7s %10s\n' run levels 'stack, KiB'
while read -r name words; do
  # The words have no spaces in them but those between them.
  # shellcheck disable=SC2086
  printf '%-34s %7s %10s\n' "$name" "$(levels $words)" "$(least_stack $words)"
done <<END
no_command
one_table plan $top/examples/t.json $q
one_table_by_4_workers plan $top/examples/t.json $q --workers 4
127_levels_of_JSON plan $folder/nested_127 $q
128_levels_of_JSON plan $folder/nested_128 $q
a_mebibyte_of_brackets plan $folder/brackets $q
a_star_of_8_tables plan $top/examples/star.json $top/examples/star.sql
a_star_by_4_workers plan $top/examples/star.json $top/examples/star.sql --workers 4
a_chain_of_10_tables plan $folder/chain.json $folder/chain.sql
the_chain_by_4_workers plan $folder/chain.json $folder/chain.sql --workers 4
a_check_of_6_nodes check $join $folder/one_sort
a_check_of_1000_nodes check $join $folder/995_sorts
END
