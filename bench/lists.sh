#!/usr/bin/env bash
# Measures `flume run` of many small files whose paths a list has, beside the same files as streams of the description: user plus system
# time, in turns, the least of the rounds, and peak memory. It asserts nothing but that both print the same frames; the numbers are for a
# reader. Needs GNU time as /usr/bin/time.
#
# usage: bench/lists.sh [FILES [LINES [ROUNDS]]]
set -eu
here=$(cd "$(dirname "$(readlink -f "$0")")/.." && pwd)
flume=${FLUME:-$here/crates/flume/out/flume}
files=${1:-1024}
lines=${2:-100}
rounds=${3:-9}
work=$(mktemp -d /dev/shm/flume_lists.XXXXXX)
trap 'rm -rf "$work"' EXIT

[ -x /usr/bin/time ] || {
  echo "GNU time isn't there as /usr/bin/time" >&2
  exit 1
}
# The first call proves and builds the program.
[ -n "${FLUME:-}" ] || "$here/flume" cat "$here/crates/flume/data/a" >/dev/null

steps='steps = ["lines", "filter 7", "number"]'
for ((k = 0; k < files; k++)); do
  seq -f "line %.0f of a file" "$k" "$((k + lines - 1))" >"$work/f$k"
  echo "$work/f$k" >>"$work/paths"
  printf '[[stream]]\npath = "%s"\n%s\n' "$work/f$k" "$steps" >>"$work/streams"
done
printf 'version = 2\n[list]\npath = "%s"\nmax = %d\n%s\n' "$work/paths" "$files" "$steps" >"$work/list"

# The frames of a run, one stream after the other.
frames() {
  "$flume" run --max-open 1 <"$work/$1" | sed '/^end outer /,$d'
}

cmp <(frames list) <(frames streams) || {
  echo "the list and the streams give something else" >&2
  exit 1
}

# The user plus system time of a run in milliseconds, and its peak of memory in KiB.
spent_by() {
  /usr/bin/time -o "$work/time" -f '%U %S %M' "$flume" run <"$work/$1" >"$work/out"
  awk '{ printf "%d %d\n", ($1 + $2) * 1000 + 0.5, $3 }' "$work/time"
}

# One warm round, then the least of the others for each, in turns.
declare -A least=() peak=()
for ((round = 0; round <= rounds; round++)); do
  for side in list streams; do
    read -r spent most <<<"$(spent_by "$side")"
    if ((round > 0)) && { [ -z "${least[$side]-}" ] || ((spent < least[$side])); }; then least[$side]=$spent; fi
    peak[$side]=$most
  done
done
echo "$files files of $lines lines, least of $rounds rounds, user plus system in ms"
awk -v l="${least[list]}" -v s="${least[streams]}" -v m="${peak[list]}" -v n="${peak[streams]}" \
  'BEGIN { printf "by a list %d, by streams %d, ratio %.2f; peak memory %d KiB and %d KiB\n", l, s, l / s, m, n }'
