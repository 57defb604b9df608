#!/usr/bin/env bash
# Measures one stream of comma-separated values that a table's values are looked up for
# (crates/csv_bench), beside mawk and the same loop in Rust with nothing but std (bench/csv.rs): user
# plus system time of whole runs, in turns; the time at double the rows; instructions a row, where
# valgrind is there; and peak memory.
# Each row is three digits; the table has 1,000 keys.
# It asserts nothing but that all give the same; the numbers are for a reader.
# Needs rt, mawk, and GNU time as /usr/bin/time; without rustc it measures without the Rust loop.
#
# usage: bench/csv.sh [ROWS [ROUNDS]]
set -eu
here=$(cd "$(dirname "$(readlink -f "$0")")/.." && pwd)
crate=$here/crates/csv_bench
rows=${1:-1600000}
rounds=${2:-5}
work=$(mktemp -d /dev/shm/flume_csv.XXXXXX)
trap 'rm -rf "$work"' EXIT
sides=(flume mawk)

fail() {
  echo "$1" >&2
  exit 1
}

# Proves and builds what changed, which takes some minutes at first.
build_flume() {
  command -v rt >/dev/null || fail "rt isn't on the path"
  (cd "$crate" && rt run) >"$work/build.log" 2>&1 </dev/null || {
    tail -n 20 "$work/build.log" >&2
    fail "the build of $crate failed"
  }
}

# For the same level of x86-64 as Rattle's compiler, where the machine is one.
build_rust() {
  local level=()
  if ! command -v rustc >/dev/null; then
    echo "no rustc on the path: the loop in Rust is left out"
    return
  fi
  if [ "$(uname -m)" = x86_64 ]; then level=(-C target-cpu=x86-64-v2); fi
  rustc --edition 2024 -O "${level[@]}" -o "$work/csv" "$here/bench/csv.rs" ||
    fail "rustc refused bench/csv.rs"
  sides+=(rust)
}

# So many rows.
make_text() {
  awk -v rows="$1" 'BEGIN { for (i = 0; i < rows; i++) printf "%03d\n", (379 * i) % 1000 }' >"$work/text.$1"
}

make_table() {
  awk 'BEGIN { for (i = 0; i < 1000; i++) printf "%03d,%d\n", i, i % 10 }' >"$work/table"
}

run_side() {
  case $1 in
    flume) "$crate/out/csv_bench" <"$work/text.$2" ;;
    mawk) mawk -F, 'NR == FNR { value[$1] = $2; next } { print $0 "," value[$1] }' "$work/table" "$work/text.$2" ;;
    rust) "$work/csv" <"$work/text.$2" ;;
  esac
}

compare_answers() {
  local side
  for side in "${sides[@]}"; do run_side "$side" "$rows" >"$work/$side.out"; done
  for side in "${sides[@]}"; do cmp "$work/flume.out" "$work/$side.out" || fail "$side gives something else"; done
}

# The user plus system milliseconds of a run.
spent_by() {
  local spent
  spent=$({ TIMEFORMAT='%3U %3S'; time run_side "$1" "$2" >"$work/out"; } 2>&1)
  awk '{ printf "%d\n", ($1 + $2) * 1000 + 0.5 }' <<<"$spent"
}

# One warm round, then the least of the others for each, in turns.
measure() {
  local size=$1 round side spent
  declare -A least=()
  for ((round = 0; round <= rounds; round++)); do
    for side in "${sides[@]}"; do
      spent=$(spent_by "$side" "$size")
      if ((round > 0)) && { [ -z "${least[$side]-}" ] || ((spent < least[$side])); }; then least[$side]=$spent; fi
    done
  done
  echo
  echo "$size rows:"
  for side in "${sides[@]}"; do
    awk -v side="$side" -v spent="${least[$side]}" -v mawk="${least[mawk]}" 'BEGIN { printf "%-6s %6d ms %6.2f of mawk\n", side, spent, spent / mawk }'
  done
}

peak() {
  /usr/bin/time -o "$work/time" -f '%M' "$crate/out/csv_bench" <"$work/text.$1" >"$work/out"
  echo "peak memory at $1 rows: $(cat "$work/time") KiB, of which the text is $(($(stat -c %s "$work/text.$1") / 1024))"
}

# The instructions of a run by callgrind.
instructions() {
  valgrind --tool=callgrind --callgrind-out-file=/dev/null "$crate/out/csv_bench" <"$work/text.$1" 2>&1 >"$work/out" |
    awk '/Collected/ { print $NF }'
}

instructions_a_row() {
  local once twice
  if ! command -v valgrind >/dev/null; then return; fi
  make_text 100000
  make_text 200000
  once=$(instructions 100000)
  twice=$(instructions 200000)
  echo "instructions a row: $(((twice - once) / 100000))"
}

[ -x /usr/bin/time ] || fail "GNU time isn't there as /usr/bin/time"
command -v mawk >/dev/null || fail "mawk isn't on the path"
build_flume
build_rust
make_table
make_text "$rows"
make_text "$((2 * rows))"
compare_answers
echo "least user plus system time of $rounds rounds"
measure "$rows"
measure "$((2 * rows))"
peak "$rows"
peak "$((2 * rows))"
instructions_a_row
