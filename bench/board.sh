#!/bin/sh
# Times inserts, claims and finishes on a board of goals with 2^10 to 2^20 cells, three of four of them with an entry,
# on one thread and on 2 and 4, and the inserts of a word table beside them. Each thread has a share of the entries.
# A time is what one call takes the thread that makes it, the mean of all threads' calls, in the least of RUNS runs;
# so where threads don't hinder each other and each has a processor, it is the same for each number of threads.
#
# It proves nothing: it runs the program of board.txt on a copy of the repository by `rt try`, which compiles it with
# checks of its memory. So the times are greater than those of a build that was proved, and fit for comparing.
#
# Usage: bench/board.sh [RUNS [BITS]]     1 20; BITS is of the greatest number of cells, from 10 to 20
set -eu
runs=${1:-1} bits=${2:-20}
from=$(cd "$(dirname "$0")/.." && pwd)
copy=$(mktemp -d)
trap 'rm -rf "$copy"' EXIT
mkdir "$copy/crates"
for crate in orca_base word_table board_rule goal_board; do
  (cd "$from/crates" && tar cf - --exclude=out "$crate") | (cd "$copy/crates" && tar xf -)
  grep "^$crate[ :]" "$from/crates.txt" >>"$copy/crates.txt"
done
echo 'board_bench: goal_board board_rule word_table atomic_table orca_base' >>"$copy/crates.txt"
cp "$from/HANDLES" "$copy"
mkdir -p "$copy/crates/board_bench/src"
cp "$from/bench/board.txt" "$copy/crates/board_bench/src/main.rt"
cd "$copy/crates/board_bench"
echo 'Times of a build with checks (rt try), which a build that was proved does without:'
rt try --seconds 3600 -- "$runs" "$bits"
