#!/bin/sh
# Many threads on one board of goals, at more seeds than a test has time for.
#
# 2, 4 and 16 threads (of these, up to THREADS) each put the same WORDS words into a board that holds them all, each in
# an order of its own; then each word must stand in one cell, and must have been fresh once. And 1, 2, 3, 4, 8 and 16
# threads serve a thousand goals with drawn children, each with its own scans, with pauses of drawn lengths between
# their calls; then all goals must be finished, with the answers that a plain loop makes, each claim must have ended
# once, and as many goals must have been made ready as were suspended while they waited.
#
# At odd seeds there are pauses within the calls too: the copy of goal_board that is run calls the rules before each
# kind of step but plain looks and claims, and there the rules pause.
#
# It proves nothing: it runs the program of board_stress.txt on a copy of the repository by `rt try`, compiled with
# checks of its memory. It prints what it counted, and ends with status 1 where anything differs, and with
# another than 0 where a run does not end.
#
# Usage: tools/board_stress.sh [THREADS [WORDS [SEEDS [FIRST]]]]     16 10000 3 1; the long form is 16 10000 1000
set -eu
threads=${1:-16} words=${2:-10000} seeds=${3:-3} first=${4:-1}
from=$(cd "$(dirname "$0")/.." && pwd)
copy=$(mktemp -d)
trap 'rm -rf "$copy"' EXIT
mkdir "$copy/crates"
for crate in orca_base word_table board_rule goal_board; do
  (cd "$from/crates" && tar cf - --exclude=out "$crate") | (cd "$copy/crates" && tar xf -)
  grep "^$crate[ :]" "$from/crates.txt" >>"$copy/crates.txt"
done
echo 'board_stress: goal_board board_rule word_table atomic_table orca_base' >>"$copy/crates.txt"
cp "$from/HANDLES" "$copy"
mkdir -p "$copy/crates/board_stress/src"
cp "$from/tools/board_stress.txt" "$copy/crates/board_stress/src/main.rt"
for file in steps wait_steps; do
  steps=$copy/crates/goal_board/src/$file.rt
  sed -i '/fn hold(/,/^    }/!s/^        self\.table$/        self.key.rules.rank(0);\n&/' "$steps"
  if ! grep -q '^        self\.key\.rules\.rank(0);$' "$steps"; then
    echo "board_stress: no step of goal_board/src/$file.rt is of the form that is looked for, so there would be no pauses" >&2
    exit 1
  fi
done
cd "$copy/crates/board_stress"
rt try --seconds $((300 + seeds * 60)) -- "$threads" "$words" "$seeds" "$first"
