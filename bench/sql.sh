#!/usr/bin/env bash
# Times the program on queries of 64 KiB, the longest that may be read. Prints the least time of several runs on each,
# and how much longer that is than the least time on a query of one line, which is mostly start-up.
# Usage: bench/sql.sh [RUNS]
runs=${1:-10}
most=65536
. "$(dirname "${BASH_SOURCE[0]}")/timing.sh"
catalog=$top/examples/t.json

# a byte, as often as the count says
repeated() {
  head -c "$2" /dev/zero | tr '\0' "$1"
}

# the front, then a byte up to the greatest length less the back's, then the back
filled() {
  printf '%s' "$1"
  repeated "$2" $((most - ${#1} - ${#3}))
  printf '%s' "$3"
}

# a line, as often as it fits, and spaces up to the greatest length
lines() {
  local line=$1 count=$((most / (${#1} + 1)))
  yes -- "$line" | head -n "$count"
  repeated ' ' $((most - count * (${#line} + 1)))
}

# elements behind one another: the text, with each @ as the element's number, and the separator between
listed() {
  local text=$1 separator=$2 count=$3 i
  for ((i = 0; i < count; i++)); do
    [ "$i" -eq 0 ] || printf '%s' "$separator"
    printf '%s' "${text//@/$i}"
  done
}

# as many elements of each list as there may be; its last key is no column, so it is read whole and then refused
largest() {
  printf 'SELECT %s' "$(listed 't0.a AS x@' ',' 60)"
  printf ' FROM %s' "$(listed 't AS t@' ',' 10)"
  printf ' WHERE %s' "$(listed 't0.b <> @' ' AND ' 40)"
  printf ' GROUP BY %s' "$(listed 't@.a' ',' 8)"
  printf ' ORDER BY %s,t0.none' "$(listed 't@.a' ',' 7)"
}

plain='SELECT a FROM t ORDER BY a'

query() {
  case $1 in
    one_line) printf '%s' "$plain" ;;
    spaces) filled 'SELECT a FROM t' ' ' ' ORDER BY a' ;;
    one_comment) filled "$plain --" 'x' '' ;;
    short_comments) printf '%s\n' "$plain"; lines '--' | head -c $((most - ${#plain} - 1)) ;;
    one_string) filled "SELECT a FROM t WHERE a = '" 'x' "' ORDER BY a" ;;
    quotes_in_a_string) filled "SELECT a FROM t WHERE a = '" "'" "'  ORDER BY a" ;;
    unclosed_string) filled "SELECT a FROM t WHERE a = '" 'x' '' ;;
    one_name) filled 'SELECT ' 'a' ' FROM t ORDER BY a' ;;
    one_integer) filled 'SELECT a FROM t WHERE a = ' '0' '1 ORDER BY a' ;;
    digits_too_many) filled 'SELECT a FROM t WHERE a = ' '9' ' ORDER BY a' ;;
    names) lines 'a' ;;
    parentheses) filled 'SELECT ' '(' '' ;;
    functions) lines 'SUM(' ;;
    largest) local text; text=$(largest); filled "$text --" 'x' '' ;;
    bad_last_byte) filled "$plain --" 'x' $'\x01' ;;
    one_byte_too_many) filled "$plain --" 'x' ''; printf 'x' ;;
  esac
}

build || exit 1
query one_line >"$folder/one_line"
first=$(least "$program" plan "$catalog" "$folder/one_line")

printf '%-20s %8s %6s %10s %10s\n' query bytes status ms 'ms more'
for name in one_line spaces one_comment short_comments one_string quotes_in_a_string unclosed_string one_name \
  one_integer digits_too_many names parentheses functions largest bad_last_byte one_byte_too_many; do
  file=$folder/$name
  query "$name" >"$file"
  "$program" plan "$catalog" "$file" >/dev/null 2>&1
  status=$?
  time=$(least "$program" plan "$catalog" "$file")
  printf '%-20s %8d %6d %10s %10s\n' "$name" "$(wc -c <"$file")" "$status" \
    "$(milliseconds "$time")" "$(milliseconds $((time - first)))"
done
