#!/usr/bin/env bash
# Measures `flume rotate` beside `split -b` on one file: user plus system time, in turns, the least of the rounds, and peak memory.
# It asserts nothing but that both leave the same pieces; the numbers are for a reader.
# Files lie in /dev/shm, so that what flume makes safe on the disk before it closes a file costs little. Needs GNU time as /usr/bin/time.
#
# usage: bench/rotate.sh [MEGABYTES [BYTES [ROUNDS]]]
set -eu
here=$(cd "$(dirname "$(readlink -f "$0")")/.." && pwd)
flume=${FLUME:-$here/crates/flume/out/flume}
megabytes=${1:-256}
bytes=${2:-1048576}
rounds=${3:-9}
work=$(mktemp -d /dev/shm/flume_bench.XXXXXX)
trap 'rm -rf "$work"' EXIT

# The first call proves and builds the program.
[ -n "${FLUME:-}" ] || "$here/flume" cat "$here/crates/flume/data/a" >/dev/null

# Lines of text, cut after so many megabytes.
make_file() {
  yes 'a line of text that says the same as the next' 2>/dev/null | head -c "$((1048576 * $2))" >"$1"
}

# How it went is looked at when all rounds are over.
rotate() { "$flume" rotate --bytes "$bytes" "$1" "$work/rotated/p" >"$work/printed" || :; }

split_as_much() { split -b "$bytes" -d -a 4 "$1" "$work/split/p."; }

# The command's own user plus system time in milliseconds, with its pieces made anew.
spent_by() {
  local TIMEFORMAT='%3U %3S' folder=$work/$1
  shift
  rm -rf "$folder"
  mkdir "$folder"
  { time "$@"; } 2>"$work/time"
  awk '{ printf "%d\n", ($1 + $2) * 1000 + 0.5 }' "$work/time"
}

# The program's peak memory in KiB.
peak_of() {
  rm -rf "$work/rotated"
  mkdir "$work/rotated"
  /usr/bin/time -o "$work/time" -f '%M' "$flume" rotate --bytes "$bytes" "$1" "$work/rotated/p" >/dev/null
  cat "$work/time"
}

make_file "$work/large" "$megabytes"
make_file "$work/small" 1
flume_least=0 split_least=0
# The first round warms, and is left out.
for ((round = 0; round <= rounds; round++)); do
  spent=$(spent_by rotated rotate "$work/large")
  if ((round && (flume_least == 0 || spent < flume_least))); then flume_least=$spent; fi
  spent=$(spent_by split split_as_much "$work/large")
  if ((round && (split_least == 0 || spent < split_least))); then split_least=$spent; fi
done
if [ "$(tail -n 1 "$work/printed")" != "0 final 0 succeeded ok" ]; then
  echo "the rotation went wrong: $(head -n 1 "$work/printed")" >&2
  exit 1
fi
# The names differ in their zeros alone.
count=0
for piece in "$work"/split/p.*; do
  if ! cmp -s "$piece" "$work/rotated/p.$count"; then
    echo "piece $count differs" >&2
    exit 1
  fi
  count=$((count + 1))
done
if [ "$(find "$work/rotated" -type f | wc -l)" != "$count" ]; then
  echo "there are more pieces than $count" >&2
  exit 1
fi
echo "$megabytes MB in $count pieces of $bytes bytes, least user plus system time of $rounds rounds"
awk -v f="$flume_least" -v s="$split_least" 'BEGIN { printf "flume %d ms, split %d ms, ratio %.2f\n", f, s, f / s }'
small=$(peak_of "$work/small")
large=$(peak_of "$work/large")
echo "peak memory of flume: $small KiB for 1 MB, $large KiB for $megabytes MB"
