#!/usr/bin/env bash
# Times the program on chains, stars and cliques of tables, one equality for each link, each over columns of its own,
# and on a star of eight tables with two filters and a grouping (examples/star.sql), with each number of workers that
# is named. Prints the least time of several runs and the greatest memory of one, with the plan's cost. Where another
# program with the same command line is named in OTHER, that is timed in the same run, without options.
# Usage: [OTHER=PROGRAM] bench/plans.sh [RUNS [GREATEST NUMBER OF TABLES [LEAST NUMBER OF TABLES [WORKERS...]]]]
runs=${1:-3}
greatest=${2:-8}
first=${3:-2}
workers=("${@:4}")
[ ${#workers[@]} -gt 0 ] || workers=(1 4)
other=${OTHER:-}
. "$(dirname "${BASH_SOURCE[0]}")/timing.sh"

# the pairs of tables that a shape links, one a line
pairs() {
  local shape=$1 tables=$2 a b
  for ((a = 0; a < tables; a++)); do
    for ((b = a + 1; b < tables; b++)); do
      case $shape in
        chain) [ $b -eq $((a + 1)) ] && echo "$a $b" ;;
        star) [ $a -eq 0 ] && echo "$a $b" ;;
        clique) echo "$a $b" ;;
      esac
    done
  done
}

# a catalogue in which each table has a column for each other one, and the query over it
write() {
  local shape=$1 tables=$2 a b comma=''
  printf '{"version":1,"segments":4,"tables":['
  for ((a = 0; a < tables; a++)); do
    printf '%s{"name":"t%d","rows":%d,"distribution":"random","columns":[{"name":"c0","ndv":100}' "$comma" $a $((1000 * (a + 1)))
    for ((b = 1; b < tables; b++)); do printf ',{"name":"c%d","ndv":%d}' $b $((100 * (b + 1))); done
    printf ']}'
    comma=,
  done
  printf ']}'
} >"$folder/catalog"

ask() {
  local shape=$1 tables=$2 a word=WHERE
  printf 'SELECT t0.c1 FROM t0'
  for ((a = 1; a < tables; a++)); do printf ', t%d' $a; done
  while read -r a b; do
    printf ' %s t%d.c%d = t%d.c%d' $word "$a" "$b" "$b" "$a"
    word=AND
  done < <(pairs "$shape" "$tables")
  printf ' ORDER BY t0.c1'
} >"$folder/query"

# a line of the table: who plans, with how many workers, and the command
line() {
  local shape=$1 tables=$2 who=$3 answer time
  shift 3
  answer=$("$@" | sed -n 1p)
  time=$(least "$@")
  printf '%-8s %6d %9s %12s %12s %s\n' "$shape" "$tables" "$who" "$(milliseconds "$time")" "$(memory "$@")" "$answer"
}

# room for the members and goals of a query: a clique of seven tables or more has more than there is usually room for
room() {
  if [ "$1" = clique ] && [ "$2" -ge 7 ]; then echo 1048576; else echo 131072; fi
}

# the lines of a query
measure() {
  local shape=$1 tables=$2 count
  shift 2
  for count in "${workers[@]}"; do
    line "$shape" "$tables" "$count" "$program" plan "$@" --workers "$count" --capacity "$(room "$shape" "$tables")"
  done
  if [ -n "$other" ]; then line "$shape" "$tables" other "$other" plan "$@"; fi
}

build || exit 1
printf '%-8s %6s %9s %12s %12s %s\n' shape tables workers 'time, ms' 'memory, KiB' answer
for shape in chain star clique; do
  for ((tables = first; tables <= greatest; tables++)); do
    write "$shape" "$tables"
    ask "$shape" "$tables"
    measure "$shape" "$tables" "$folder/catalog" "$folder/query"
  done
done
measure grouped 8 "$top/examples/star.json" "$top/examples/star.sql"
