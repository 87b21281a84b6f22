#!/usr/bin/env bash
# Times the memo's text of the greatest worked query, a star of eight tables with grouping and two predicates
# (examples/star.sql: 139 groups, 3,739 members), on the program: the plan alone, and the plan with the memo behind it.
# Prints the least time of several runs.
# Usage: bench/memo.sh [RUNS]
runs=${1:-10}
. "$(dirname "${BASH_SOURCE[0]}")/timing.sh"
words=(plan "$top/examples/star.json" "$top/examples/star.sql")

build || exit 1
lines=$("$program" "${words[@]}" --memo | sed -n '/^memo /,$p' | tee "$folder/memo" | wc -l)
[ "$lines" -gt 1 ] || { echo "memo.sh: the program printed no memo" >&2; exit 1; }
plan=$(least "$program" "${words[@]}")
memo=$(least "$program" "${words[@]}" --memo)
sed -n 1p "$folder/memo"
printf 'plan %s ms, with the memo %s ms: %d ns a line\n' \
  "$(milliseconds "$plan")" "$(milliseconds "$memo")" $(((memo - plan) * 1000 / lines))
