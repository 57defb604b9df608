#!/usr/bin/env bash
# Measures `flume cat` beside `dd` on one file, and beside the same frames in Rust with nothing but std
# (bench/cat.rs): user plus system time, and peak memory. `dd` writes whole pages of 4,096 bytes; a frame
# of so many bytes has its two lines besides.
# It asserts nothing but that both print the same frames; the numbers are for a reader.
# Needs GNU time as /usr/bin/time; without rustc it measures without the loop in Rust.
#
# usage: bench/cat.sh [MEGABYTES [ROUNDS]]
set -eu
here=$(cd "$(dirname "$(readlink -f "$0")")/.." && pwd)
flume=${FLUME:-$here/crates/flume/out/flume}
megabytes=${1:-256}
rounds=${2:-7}
work=$(mktemp -d /dev/shm/flume_bench.XXXXXX)
trap 'rm -rf "$work"' EXIT

# The first call proves and builds the program.
[ -n "${FLUME:-}" ] || "$here/flume" cat "$here/crates/flume/data/a" >/dev/null

# The loop in Rust, for the processors that Rattle's compiler builds for.
build_rust() {
  local level=()
  if ! command -v rustc >/dev/null; then
    echo "no rustc on the path: the loop in Rust is left out"
    return
  fi
  [ "$(uname -m)" != x86_64 ] || level=(-C target-cpu=x86-64-v2)
  rustc --edition 2024 -O "${level[@]}" -o "$work/cat" "$here/bench/cat.rs"
}

# Lines of text, cut after so many megabytes.
make_file() {
  yes 'a line of text that says the same as the next' 2>/dev/null | head -c "$((1048576 * $2))" >"$1"
}

# The command's own user plus system time in milliseconds.
spent_by() {
  local to=$1 TIMEFORMAT='%3U %3S'
  shift
  case $to in
    file) { time "$@" >"$work/copy" 2>/dev/null; } 2>"$work/time" ;;
    pipe) { time "$@" 2>/dev/null; } 2>"$work/time" | cat >/dev/null ;;
  esac
  awk '{ printf "%d\n", ($1 + $2) * 1000 + 0.5 }' "$work/time"
}

# The command's peak memory in KiB.
peak_of() {
  /usr/bin/time -o "$work/time" -f '%M' "$@" >/dev/null
  cat "$work/time"
}

# The least time of one that is measured, by its name: after a warm round the least of the others.
declare -A least

# One round of all that is measured, in turns.
round() {
  local to=$1 file=$2 keep=$3 name spent
  for name in flume dd rust; do
    case $name in
      flume) spent=$(spent_by "$to" "$flume" cat "$file") ;;
      dd) spent=$(spent_by "$to" dd bs=4096 if="$file") ;;
      rust)
        [ -x "$work/cat" ] || continue
        spent=$(spent_by "$to" "$work/cat" "$file")
        ;;
    esac
    if ((keep && (${least[$name]:-0} == 0 || spent < least[$name]))); then least[$name]=$spent; fi
  done
}

compare() {
  local to=$1 file=$2 number
  least=()
  for ((number = 0; number <= rounds; number++)); do
    round "$to" "$file" "$number"
  done
  awk -v to="$to" -v f="${least[flume]}" -v d="${least[dd]}" -v r="${least[rust]:-0}" 'BEGIN {
    printf "to a %s: flume %d ms, dd %d ms, ratio %.2f", to, f, d, f / d
    if (r > 0) printf "; in Rust %d ms, ratio %.2f", r, f / r
    print ""
  }'
}

build_rust
make_file "$work/large" "$megabytes"
make_file "$work/small" 1
last=$("$flume" cat "$work/large" | tail -n 1)
if [ "$last" != "0 final 0 succeeded ok" ]; then
  echo "the run went wrong: $last" >&2
  exit 1
fi
# What the loop in Rust prints is a front of what flume does.
if [ -x "$work/cat" ]; then
  "$work/cat" "$work/large" >"$work/frames"
  if ! "$flume" cat "$work/large" | head -c "$(stat -c %s "$work/frames")" | cmp -s - "$work/frames"; then
    echo "the loop in Rust prints other frames" >&2
    exit 1
  fi
  rm "$work/frames"
fi
echo "$megabytes MB, least user plus system time of $rounds rounds"
compare file "$work/large"
compare pipe "$work/large"
small=$(peak_of "$flume" cat "$work/small")
large=$(peak_of "$flume" cat "$work/large")
echo "peak memory of flume: $small KiB for 1 MB, $large KiB for $megabytes MB"
