#!/usr/bin/env bash
# Times the program on catalogues of a mebibyte, the longest that may be read. Prints the least time of several runs on
# each. One of another version is read as JSON and then refused, so what a good one takes more is the catalogue's walk.
# Usage: bench/catalog.sh [RUNS]
runs=${1:-10}
most=1048576
. "$(dirname "${BASH_SOURCE[0]}")/timing.sh"

# so many tables with so many columns each, with spaces at the end up to the greatest length
catalog() {
  local version=$1 tables=$2 columns=$3 text
  text=$(awk -v version="$version" -v tables="$tables" -v columns="$columns" 'BEGIN {
    printf "{\"version\":%d,\"segments\":4,\"tables\":[", version
    for (t = 0; t < tables; t++) {
      printf "%s{\"name\":\"t%d\",\"rows\":1000,\"distribution\":[\"c0\"],\"columns\":[", (t ? "," : ""), t
      for (c = 0; c < columns; c++) printf "%s{\"name\":\"c%d\",\"ndv\":100}", (c ? "," : ""), c
      printf "]}"
    }
    printf "]}"
  }')
  printf '%s%*s' "$text" $((most - ${#text})) ''
}

printf 'SELECT t0.c0 FROM t0' >"$folder/query"
build || exit 1
printf '%-10s %8s %8s %12s %12s %12s\n' tables columns bytes 'as JSON, ms' 'whole, ms' 'the walk, ms'
for shape in '1000 34' '33 1000' '1 1000'; do
  read -r tables columns <<<"$shape"
  catalog 2 "$tables" "$columns" >"$folder/json"
  catalog 1 "$tables" "$columns" >"$folder/whole"
  json=$(least "$program" plan "$folder/json" "$folder/query")
  whole=$(least "$program" plan "$folder/whole" "$folder/query")
  printf '%-10s %8s %8s %12s %12s %12s\n' "$tables" "$columns" "$(wc -c <"$folder/whole")" \
    "$(milliseconds "$json")" "$(milliseconds "$whole")" "$(milliseconds $((whole > json ? whole - json : 0)))"
done
