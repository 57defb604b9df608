#!/usr/bin/env bash
# Measures each pipe alone, over text from memory, beside the same loop in Rust with nothing but std
# (bench/pipes.rs): user plus system time, the time at double the input, and peak memory.
# Then GNU's tools that do the same, over the same text in a file in memory, from which they read and
# to which they write.
# It asserts nothing but that both sides give the same; the numbers are for a reader.
# Needs rt, and GNU time as /usr/bin/time; without rustc it measures flume alone.
#
# usage: bench/pipes.sh [MEGABYTES [ROUNDS]]
set -eu
here=$(cd "$(dirname "$(readlink -f "$0")")/.." && pwd)
crate=$here/crates/pipe_bench
flume=$crate/out/pipe_bench
megabytes=${1:-64}
rounds=${2:-5}
work=$(mktemp -d /dev/shm/flume_bench.XXXXXX)
trap 'rm -rf "$work"' EXIT
rust=

fail() {
  echo "$1" >&2
  exit 1
}

# Proves and builds what changed, which takes some minutes at first.
build_flume() {
  command -v rt >/dev/null || fail "rt isn't on the path"
  (cd "$crate" && rt run -- all 1) >"$work/build.log" 2>&1 </dev/null || {
    tail -n 20 "$work/build.log" >&2
    fail "the build of $crate failed"
  }
}

# For the same level of x86-64 as Rattle's compiler, where the machine is one.
build_rust() {
  local level=()
  if ! command -v rustc >/dev/null; then
    echo "no rustc on the path: flume is measured alone"
    return
  fi
  if [ "$(uname -m)" = x86_64 ]; then level=(-C target-cpu=x86-64-v2); fi
  rustc --edition 2024 -O "${level[@]}" -o "$work/pipes" "$here/bench/pipes.rs" ||
    fail "rustc refused bench/pipes.rs"
  rust=$work/pipes
}

# Both give the same to the byte, also where the cuts fall into lines and characters.
compare_answers() {
  local chunk
  for chunk in 61 4096 65536; do
    "$flume" all 2 "$chunk" >"$work/flume.answers"
    "$rust" all 2 "$chunk" >"$work/rust.answers"
    diff "$work/flume.answers" "$work/rust.answers" >&2 || fail "the answers differ at $chunk bytes"
  done
}

# The microseconds that a run spent in the pipe.
spent_by() {
  local program=$1 pipe=$2 size=$3 chunk=$4 micros
  read -r _ _ _ micros < <("$program" "$pipe" "$size" "$chunk" time)
  echo "$micros"
}

# The peak memory of a run in KiB.
peak_of() {
  /usr/bin/time -o "$work/time" -f '%M' "$flume" "$@" time >/dev/null
  cat "$work/time"
}

# One warm round, then the least of the others for each, in turns.
measure() {
  local pipe=$1 chunk=$2 once=999999999 twice=999999999 std=999999999 round spent
  for ((round = 0; round <= rounds; round++)); do
    spent=$(spent_by "$flume" "$pipe" "$megabytes" "$chunk")
    if ((round > 0 && spent < once)); then once=$spent; fi
    spent=$(spent_by "$flume" "$pipe" "$((2 * megabytes))" "$chunk")
    if ((round > 0 && spent < twice)); then twice=$spent; fi
    if [ -z "$rust" ]; then continue; fi
    spent=$(spent_by "$rust" "$pipe" "$megabytes" "$chunk")
    if ((round > 0 && spent < std)); then std=$spent; fi
  done
  if [ -z "$rust" ]; then std=0; fi
  echo "$pipe $once $std $twice $(peak_of "$pipe" "$megabytes" "$chunk") $(peak_of "$pipe" "$((2 * megabytes))" "$chunk")" |
    awk '{
      std = $3 > 0 ? sprintf("%.1f", $3 / 1000) : "-"
      ratio = $3 > 0 ? sprintf("%.2f", $2 / $3) : "-"
      printf "%-12s %9.1f %9s %6s %9.1f %9d %9d\n", $1, $2 / 1000, std, ratio, $4 / 1000, $5, $6
    }'
}

table() {
  local chunk=$1 pipe
  echo
  echo "loads of $chunk bytes, or $(((chunk + 63) / 64)) lines:"
  printf '%-12s %9s %9s %6s %9s %9s %9s\n' pipe "flume ms" "Rust ms" ratio "ms at 2x" "KiB" "KiB at 2x"
  for pipe in $("$flume" all 1 | cut -d ' ' -f 1); do
    measure "$pipe" "$chunk"
  done
}

# The least user and system time of a tool, each of its own round.
tool() {
  local shown=$1 round spent user=999999 system=999999
  shift
  for ((round = 0; round <= rounds; round++)); do
    spent=$({ TIMEFORMAT='%3U %3S'; time LC_ALL=C "$@" <"$work/text" >"$work/out"; } 2>&1)
    read -r spent_user spent_system < <(awk '{ printf "%d %d\n", $1 * 1000 + 0.5, $2 * 1000 + 0.5 }' <<<"$spent")
    if ((round > 0 && spent_user < user)); then user=$spent_user; fi
    if ((round > 0 && spent_system < system)); then system=$spent_system; fi
  done
  printf '%-14s %9d %9d\n' "$shown" "$user" "$system"
}

tools() {
  if [ -z "$rust" ]; then return; fi
  "$rust" text "$megabytes" >"$work/text"
  echo
  printf '%-14s %9s %9s\n' tool "user ms" "system ms"
  tool 'tr a-z A-Z' tr a-z A-Z
  tool 'grep -F needle' grep -F needle
  tool 'cat -n' cat -n
  tool uniq uniq
  tool 'wc -l' wc -l
}

[ -x /usr/bin/time ] || fail "GNU time isn't there as /usr/bin/time"
build_flume
build_rust
if [ -n "$rust" ]; then compare_answers; fi
echo "$megabytes MB of text, least user plus system time of $rounds rounds"
table 4096
table 65536
tools
