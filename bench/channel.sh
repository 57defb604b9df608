#!/usr/bin/env bash
# Measures the channel from one thread to another beside std's `sync_channel` in Rust
# (bench/channel.rs): user plus system time for so many messages through a queue of so many places,
# and for a thread that waits at an empty or a full queue. An end of flume's channel waits by a
# `Backoff` alone (spin), or naps between two tries once that has done its part (nap).
# It asserts nothing but that all messages come; the numbers are for a reader.
# Needs rt; without rustc it measures flume alone.
#
# usage: bench/channel.sh [MESSAGES [CAPACITY [ROUNDS]]]
set -eu
here=$(cd "$(dirname "$(readlink -f "$0")")/.." && pwd)
crate=$here/crates/channel_bench
flume=$crate/out/channel_bench
messages=${1:-1000000}
capacity=${2:-16}
rounds=${3:-7}
idle=1000
work=$(mktemp -d /dev/shm/flume_bench.XXXXXX)
trap 'rm -rf "$work"' EXIT
rust=

fail() {
  echo "$1" >&2
  exit 1
}

# Proves and builds what changed, which takes some minutes at first.
build_flume() {
  command -v rt >/dev/null || fail "rt isn't on the path"
  (cd "$crate" && rt run -- send 1000 16 spin) >"$work/build.log" 2>&1 </dev/null || {
    tail -n 20 "$work/build.log" >&2
    fail "the build of $crate failed"
  }
}

# For the same level of x86-64 as Rattle's compiler, where the machine is one.
build_rust() {
  local level=()
  if ! command -v rustc >/dev/null; then
    echo "no rustc on the path: flume is measured alone"
    return
  fi
  if [ "$(uname -m)" = x86_64 ]; then level=(-C target-cpu=x86-64-v2); fi
  rustc --edition 2024 -O "${level[@]}" -o "$work/channel" "$here/bench/channel.rs" ||
    fail "rustc refused bench/channel.rs"
  rust=$work/channel
}

# The microseconds that a run used, once it is seen that all messages came.
spent_by() {
  local wanted=$1 count micros
  shift
  read -r count micros < <("$@" time)
  [ "$count" = "$wanted" ] || fail "$count messages came of $wanted: $*"
  echo "$micros"
}

# Runs of all three in turns, the least and the middle of each.
measure() {
  local name=$1 wanted=$2 round
  shift 2
  : >"$work/spin"
  : >"$work/nap"
  : >"$work/std"
  for ((round = 0; round < rounds; round++)); do
    spent_by "$wanted" "$flume" "$@" spin >>"$work/spin"
    spent_by "$wanted" "$flume" "$@" nap >>"$work/nap"
    if [ -n "$rust" ]; then spent_by "$wanted" "$rust" "$@" >>"$work/std"; fi
  done
  echo "$name $(told_of spin) $(told_of nap) $(told_of std)" |
    awk '{ printf "%-8s %12s %12s %12s %12s %12s %12s\n", $1, $2, $3, $4, $5, $6, $7 }'
}

# The least and the middle of the figures in a file, in milliseconds.
told_of() {
  sort -n "$work/$1" | awk '
    { all[NR] = $1 }
    END { if (NR == 0) print "- -"; else printf "%.1f %.1f\n", all[1] / 1000, all[int((NR + 1) / 2)] / 1000 }'
}

build_flume
build_rust
echo "$messages messages through $capacity places, and $idle ms of waiting: user plus system time in ms of $rounds rounds, the least and the middle"
printf '%-8s %12s %12s %12s %12s %12s %12s\n' '' 'spin least' middle 'nap least' middle 'std least' middle
measure send "$messages" send "$messages" "$capacity"
measure empty 1 empty "$idle"
measure full 2 full "$idle"
