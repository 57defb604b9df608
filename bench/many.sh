#!/usr/bin/env bash
# Measures many streams side by side: `flume run` of files of comma-separated values that are looked up
# in one table, beside mawk over the same files, one after the other, and beside the same in Rust with as
# many threads as streams may be open (bench/many.rs): user plus system time of whole runs, in turns; the
# time at twice as many streams; the time from beginning to end with one stream open at a time and with
# four; peak memory with 1, 4 and 64 open, and with many described of which few are open; and what a run
# takes that waits for a file which nobody writes.
# Each row is three digits; the table has 1,000 keys.
# It asserts nothing but that all give the same; the numbers are for a reader.
# Needs rt, mawk, rustc, and GNU time as /usr/bin/time.
#
# usage: bench/many.sh [STREAMS [ROWS [ROUNDS]]]
set -eu
here=$(cd "$(dirname "$(readlink -f "$0")")/.." && pwd)
flume=${FLUME:-$here/crates/flume/out/flume}
streams=${1:-32}
rows=${2:-100000}
rounds=${3:-5}
work=$(mktemp -d /dev/shm/flume_many.XXXXXX)
trap 'rm -rf "$work"' EXIT

fail() {
  echo "$1" >&2
  exit 1
}

# File k of so many rows.
make_file() {
  awk -v k="$1" -v rows="$2" 'BEGIN { for (i = 0; i < rows; i++) printf "%03d\n", (17 * k + 379 * i) % 1000 }' >"$work/g$1"
}

make_table() {
  awk 'BEGIN { for (i = 0; i < 1000; i++) printf "%03d,%d\n", i, i % 10 }' >"$work/gt"
}

# A description of so many streams, of the files g0, g1, .. in turn.
describe() {
  local k
  echo "[[table]]"
  echo "name = 't'"
  echo "path = '$work/gt'"
  for ((k = 0; k < $1; k++)); do
    echo "[[stream]]"
    echo "path = '$work/g$((k % $2))'"
    echo "steps = ['csv', 'lookup t 0']"
  done
}

run_flume() {
  "$flume" run --max-open "${2:-4}" <"$work/plan.$1"
}

run_rust() {
  local k files=()
  for ((k = 0; k < $1; k++)); do files+=("$work/g$k"); done
  "$work/many" "$work/gt" "${2:-4}" "${files[@]}"
}

run_mawk() {
  local k files=()
  for ((k = 0; k < $1; k++)); do files+=("$work/g$k"); done
  mawk -F, 'NR == FNR { value[$1] = $2; next } { print $0 "," value[$1] }' "$work/gt" "${files[@]}"
}

# The rows of all streams, sorted, without the frames' heads, the ends and the ledger.
compare_answers() {
  run_flume "$1" | grep -E '^[0-9]{3},' | sort >"$work/flume.rows"
  run_mawk "$1" | sort >"$work/mawk.rows"
  run_rust "$1" | grep -E '^[0-9]{3},' | sort >"$work/rust.rows"
  cmp "$work/flume.rows" "$work/mawk.rows" || fail "flume and mawk give something else"
  cmp "$work/rust.rows" "$work/mawk.rows" || fail "the loop in Rust and mawk give something else"
}

# The user plus system milliseconds of a run.
spent_by() {
  local spent
  spent=$({ TIMEFORMAT='%3U %3S'; time "run_$1" "$2" >"$work/out"; } 2>&1)
  awk '{ printf "%d\n", ($1 + $2) * 1000 + 0.5 }' <<<"$spent"
}

# The milliseconds from beginning to end of a run with so many streams open.
lasted_by() {
  local lasted
  lasted=$({ TIMEFORMAT='%3R'; time "run_$1" "$2" "$3" >"$work/out"; } 2>&1)
  awk '{ printf "%d\n", $1 * 1000 + 0.5 }' <<<"$lasted"
}

# One warm round, then the least of the others for each, in turns.
measure() {
  local count=$1 round side spent
  declare -A least=()
  for ((round = 0; round <= rounds; round++)); do
    for side in flume mawk rust; do
      spent=$(spent_by "$side" "$count")
      if ((round > 0)) && { [ -z "${least[$side]-}" ] || ((spent < least[$side])); }; then least[$side]=$spent; fi
    done
  done
  awk -v count="$count" -v f="${least[flume]}" -v m="${least[mawk]}" -v r="${least[rust]}" 'BEGIN {
    printf "%d streams: flume %d ms, mawk %d ms, ratio %.2f; in Rust %d ms, ratio %.2f\n", count, f, m, f / m, r, f / r
  }'
}

# The same with the time from beginning to end, by how many streams are open.
measure_open() {
  local count=$1 round side open lasted
  declare -A least=()
  for ((round = 0; round <= rounds; round++)); do
    for side in flume rust; do
      for open in 1 4; do
        lasted=$(lasted_by "$side" "$count" "$open")
        if ((round > 0)) && { [ -z "${least[$side$open]-}" ] || ((lasted < least[$side$open])); }; then least[$side$open]=$lasted; fi
      done
    done
  done
  for side in flume rust; do
    awk -v side="$side" -v one="${least[${side}1]}" -v four="${least[${side}4]}" 'BEGIN {
      printf "from beginning to end, %s: %d ms with one open, %d ms with four, ratio %.2f\n", side, one, four, four / one
    }'
  done
}

peak() {
  /usr/bin/time -o "$work/time" -f '%M' "$flume" run --max-open "${2:-4}" <"$work/plan.$1" >"$work/out"
  echo "peak memory at $1 streams, ${2:-4} open: $(cat "$work/time") KiB"
}

# What a run takes in six seconds in which two streams wait for a file that nobody writes.
measure_idle() {
  local ticks
  mkfifo "$work/nobody"
  printf '[[stream]]\npath = "%s"\n' "$work/nobody" "$work/nobody" | "$flume" run >"$work/out" &
  sleep 6
  ticks=$(awk '{ print $14 + $15 }' "/proc/$!/stat")
  { kill "$!" && wait "$!"; } 2>/dev/null || true
  awk -v ticks="$ticks" -v second="$(getconf CLK_TCK)" 'BEGIN { printf "six seconds of waiting took %d ms\n", ticks * 1000 / second }'
}

# Small files, of which four are open at a time.
peak_described() {
  local count
  for count in 64 1024; do
    describe "$count" 1 >"$work/plan.$count"
    sed -i "s|$work/g0|$work/small|" "$work/plan.$count"
    peak "$count"
  done
}

[ -x /usr/bin/time ] || fail "GNU time isn't there as /usr/bin/time"
command -v mawk >/dev/null || fail "mawk isn't on the path"
command -v rustc >/dev/null || fail "rustc isn't on the path"
rustc --edition 2024 -O -C target-cpu=x86-64-v2 -o "$work/many" "$here/bench/many.rs"
# The first call proves and builds the program.
if [ -z "${FLUME-}" ]; then "$here/flume" cat "$here/crates/flume/data/a" >/dev/null; fi
make_table
for ((k = 0; k < 2 * streams; k++)); do make_file "$k" "$rows"; done
head -n 10 "$work/g0" >"$work/small"
describe "$streams" "$streams" >"$work/plan.$streams"
describe "$((2 * streams))" "$((2 * streams))" >"$work/plan.$((2 * streams))"
compare_answers "$streams"
echo "least user plus system time of $rounds rounds, $rows rows a stream"
measure "$streams"
measure "$((2 * streams))"
measure_open "$((2 * streams))"
for open in 1 4 64; do peak "$((2 * streams))" "$open"; done
peak_described
measure_idle
