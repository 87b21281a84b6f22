#!/usr/bin/env bash
# Tests the script `orca` over toolchains that only pretend: what it starts, and what it says where a build fails.
set -u
top=$(cd "$(dirname "${BASH_SOURCE[0]}")/.." && pwd)
failed=0
passed=0

export ORCA_PROVED_ONLY=1

# A checkout with a few crates, whose program says that it is stale, and a command rt of these lines.
make_checkout() {
  checkout=$(mktemp -d)
  mkdir -p "$checkout/crates/orca/src" "$checkout/crates/orca/out" "$checkout/bin" "$checkout/tools"
  mkdir -p "$checkout/crates/low/specs" "$checkout/crates/low/proofs" "$checkout/crates/low/must-fail"
  mkdir -p "$checkout/crates/high" "$checkout/crates/beside"
  cp "$top/orca" "$top/HANDLES" "$checkout"
  cp "$top/tools/build_program.py" "$top/tools/answer_unproved.py" "$checkout/tools"
  printf '%s\n' "# a comment" "orca: high std" "low:" "high may_wait=1: low" "beside: low" > "$checkout/crates.txt"
  printf '#!/bin/sh\necho stale\n' > "$checkout/crates/orca/out/orca"
  chmod +x "$checkout/crates/orca/out/orca"
  echo "fn main() {}" > "$checkout/crates/orca/src/main.rt"
  echo "-- a definition" > "$checkout/crates/low/specs/Low.antt"
  echo "-- a proof" > "$checkout/crates/low/proofs/Low.antt"
  make_rt "$1"
}

make_rt() {
  printf '#!/bin/sh\nat=${0%%/bin/rt}\n%s\n' "$1" > "$checkout/bin/rt"
  chmod +x "$checkout/bin/rt"
}

# A command rt that builds a program, which prints its first word and what the source says. What stands in the file
# `during` is done once in the middle of the build.
builds='echo "$1" >> "$at/calls"
text=$(cat crates/orca/src/main.rt)
[ -e "$at/during" ] && mv "$at/during" "$at/done" && . "$at/done"
mkdir crates/orca/out
{ echo "#!/bin/sh"; echo "echo \"\$1 of $text\""; } > crates/orca/out/orca; chmod +x crates/orca/out/orca'

# A checkout whose program has just been built, and a command rt that then fails.
make_built_checkout() {
  make_checkout "$builds"
  PATH="$checkout/bin:$PATH" "$checkout/orca" word >/dev/null 2>&1
  make_rt 'echo "called again"; exit 1'
}

# Runs the script there, and compares its status, its output and a word of its standard error.
expect() {
  expect_kept "$@"
  rm -rf "$checkout"
}

expect_kept() {
  local name=$1 status=$2 output=$3 word=$4 said errors
  errors=$(mktemp)
  said=$(PATH="$checkout/bin:$PATH" "$checkout/orca" word 2>"$errors")
  if [ $? -eq "$status" ] && [ "$said" = "$output" ] && { [ -z "$word" ] || grep -q -- "$word" "$errors"; }; then
    passed=$((passed + 1))
  else
    failed=$((failed + 1))
    echo "failed: $name"
  fi
  rm -f "$errors"
}

# ---- builds

make_checkout 'echo "a proof is open"; exit 1'
expect "a build that fails starts no stale program" 125 "" "a proof is open"

make_checkout 'echo "$1" of $(find . -type f | sort) $(cat crates.txt); exit 1'
expect "what is proved is a copy of the program's crates, without edits and without other crates" 125 "" \
  "^ci of ./HANDLES ./crates.txt ./crates/low/proofs/Low.antt ./crates/low/specs/Low.antt ./crates/orca/src/main.rt orca: high std low: high may_wait=1: low$"

make_checkout 'echo "rt: low proved"; echo "rt: high is kept: an earlier run proved it"; exit 1'
expect "what is proved is told, with what was proved before" 125 "" "orca: proved low"

make_checkout 'exit 0'
expect "a build that makes no program starts no stale one" 125 "" "couldn't be built"

make_checkout "$builds"
expect "a program that was built is started with the words" 0 "word of fn main() {}" "proving"

make_checkout 'mkdir crates/orca/out; printf "#!/bin/sh\nexit 2\n" > crates/orca/out/orca; chmod +x crates/orca/out/orca'
expect "the status of the program is the script's" 2 "" "proving"

# ---- what is current

make_built_checkout
expect "a program that is current is started at once" 0 "word of fn main() {}" ""

make_built_checkout
echo "fn main() { edited }" > "$checkout/crates/orca/src/main.rt"
make_rt "$builds"
expect "a source that was edited is built" 0 "word of fn main() { edited }" "proving"

make_built_checkout
rm "$checkout/crates/low/specs/Low.antt"
expect "a source that was deleted is seen" 125 "" "called again"

make_built_checkout
rm -r "$checkout/crates/low/specs"
expect "a folder that was deleted is seen" 125 "" "called again"

make_built_checkout
echo "-- another" > "$checkout/crates/low/specs/Other.antt"
expect "a source that was added is seen" 125 "" "called again"

make_built_checkout
echo "-- another proof" > "$checkout/crates/low/proofs/Low.antt"
echo "-- one more" > "$checkout/crates/low/proofs/More.antt"
expect "where only proofs changed the program stays proved and is started" 0 "word of fn main() {}" ""

make_built_checkout
echo "-- an old one" > "$checkout/crates/low/specs/Low.antt"
touch -d "1 year ago" "$checkout/crates/low/specs/Low.antt" "$checkout/crates/low/specs"
expect "a source that was replaced by one with an older time is seen" 125 "" "called again"

make_checkout "$builds"
echo 'echo "fn main() { edited }" > $at/crates/orca/src/main.rt' > "$checkout/during"
expect_kept "a program whose source is edited while it is built isn't started" 0 "word of fn main() { edited }" ""
make_rt 'echo "called again"; exit 1'
expect "the program of the second build is current" 0 "word of fn main() { edited }" ""

make_checkout "$builds"
PATH="$checkout/bin:$PATH" "$checkout/orca" word >/dev/null 2>&1 &
PATH="$checkout/bin:$PATH" "$checkout/orca" word >/dev/null 2>&1
wait
make_rt 'echo "called again"; exit 1'
printf '#!/bin/sh\nexit %s\n' "\$(($(grep -c "^ci" "$checkout/calls") - 1))" > "$checkout/crates/orca/out/orca"
expect "of two calls at once one builds" 0 "" ""

# ---- the answer before the proof

unset ORCA_PROVED_ONLY
# A command rt whose try answers with this status and output; its other calls build.
tries='[ "$1" = try ] && { cat > /dev/null; echo "$*"; echo "run=ended status=3 runners=1 proved=no" >&2; exit 3; }'

make_checkout "$tries
$builds"
expect_kept "an unproved run answers first, with its status" 3 "try --seconds 120 -- word" "comes from an unproved build"
make_rt 'echo "called again"; exit 1'
expect "the next call is answered by the proved program" 0 "word of fn main() {}" ""

make_checkout "$tries
echo 'a proof is open'; exit 1"
expect "where the proof fails, the answer and its status stay" 3 "try --seconds 120 -- word" "a proof is open"

make_checkout "$tries
$builds"
export ORCA_PROVED_ONLY=1
expect "ORCA_PROVED_ONLY=1 waits for the proof" 0 "word of fn main() {}" ""
unset ORCA_PROVED_ONLY

make_checkout "[ \$1 = try ] && { echo a beginning; echo 'checked: no-answer: too long' >&2; echo 'run=no-answer proved=no' >&2; exit 6; }
$builds"
expect "without an answer of the unproved run the proof is waited for" 0 "word of fn main() {}" "no answer before the proof: checked: no-answer: too long"

# (the words that name files are those that the caller's folder has)
make_checkout "$tries
$builds"
cd "$checkout" || exit 1
mkdir folder
touch folder/a a=b
cp orca program
said=$(PATH="$checkout/bin:$PATH" ./orca plan folder/a "$checkout/a=b" ../none 2>/dev/null)
cd "$top" || exit 1
wanted="try --seconds 120 --data folder/a=$checkout/folder/a --data orca-word-2=$checkout/a=b -- plan folder/a orca-word-2 ../none"
if [ "$said" = "$wanted" ]; then passed=$((passed + 1)); else failed=$((failed + 1)); echo "failed: words: $said"; fi
rm -rf "$checkout"

make_checkout "$tries
$builds"
PATH="$checkout/bin:$PATH" "$checkout/orca" word >/dev/full 2>/dev/null
if [ $? -eq 7 ]; then passed=$((passed + 1)); else failed=$((failed + 1)); echo "failed: a full output"; fi
rm -rf "$checkout"
export ORCA_PROVED_ONLY=1

# ---- how the program is started

make_built_checkout
printf '#!/bin/sh\necho "$GLIBC_TUNABLES"\n' > "$checkout/crates/orca/out/orca"
unset GLIBC_TUNABLES
expect "the program is started with large pages for all of a block" 0 \
  "glibc.malloc.hugetlb=1:glibc.malloc.mmap_threshold=1073741824" ""

make_built_checkout
printf '#!/bin/sh\necho "$GLIBC_TUNABLES"\n' > "$checkout/crates/orca/out/orca"
export GLIBC_TUNABLES=glibc.malloc.hugetlb=0
expect "what the caller set for the C library stays" 0 "glibc.malloc.hugetlb=0" ""
unset GLIBC_TUNABLES

echo "$passed passed, $failed failed"
[ "$failed" -eq 0 ]
