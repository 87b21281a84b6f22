# What the scripts beside this one share: they set `runs`, and then read this in.
set -u
export LC_ALL=C
top=$(cd "$(dirname "${BASH_SOURCE[0]}")/.." && pwd)
program=$top/crates/orca/out/orca
# The program is timed in the large pages in which the script starts it.
export GLIBC_TUNABLES=${GLIBC_TUNABLES-$(sed -n 's/^large_pages=//p' "$top/orca")}
folder=$(mktemp -d) || exit 1
trap 'rm -rf "$folder"' EXIT

# builds the program where it is missing or old
build() {
  ORCA_PROVED_ONLY=1 "$top/orca" plan "$top/examples/t.json" "$top/examples/q.sql" >/dev/null
}

# the least time of the runs of a command, in microseconds
least() {
  local best='' start end i
  for ((i = 0; i < runs; i++)); do
    start=${EPOCHREALTIME/./}
    "$@" >/dev/null 2>&1
    end=${EPOCHREALTIME/./}
    if [ -z "$best" ] || [ $((end - start)) -lt "$best" ]; then best=$((end - start)); fi
  done
  echo "$best"
}

# microseconds, as milliseconds
milliseconds() {
  local sign=''
  [ "$1" -ge 0 ] || sign=-
  printf '%s%d.%02d' "$sign" $((${1#-} / 1000)) $((${1#-} % 1000 / 10))
}

# the greatest memory that a run of a command had, in KiB, by GNU time; that counts for a moment before the command
# starts, with less than 2 MiB
memory() {
  if [ -x /usr/bin/time ]; then
    /usr/bin/time -f %M -o "$folder/memory" "$@" >/dev/null 2>&1
    tail -n 1 "$folder/memory"
  else
    echo '?'
  fi
}
