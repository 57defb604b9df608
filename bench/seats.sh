#!/usr/bin/env bash
# Measures seats that threads share beside seats of one thread, and beside single atomic steps in Rust
# with nothing but std (bench/seats.rs): user plus system time of whole lives of rows, each with a table
# of its own or all at one table, and of notes at one table; and how long threads take at one table, for
# notes and for rows of their own, beside what as many single steps of as many threads take in Rust.
# It asserts nothing; the numbers are for a reader. Needs rt; without rustc it measures flume alone.
#
# usage: bench/seats.sh [LIVES [ROUNDS]]
set -eu
here=$(cd "$(dirname "$(readlink -f "$0")")/.." && pwd)
crate=$here/crates/seat_bench
flume=$crate/out/seat_bench
lives=${1:-1000000}
rounds=${2:-5}
work=$(mktemp -d /dev/shm/flume_bench.XXXXXX)
trap 'rm -rf "$work"' EXIT
rust=

fail() {
  echo "$1" >&2
  exit 1
}

# Proves and builds what changed, which takes some minutes at first.
build_flume() {
  command -v rt >/dev/null || fail "rt isn't on the path"
  (cd "$crate" && rt run -- shared 1) >"$work/build.log" 2>&1 </dev/null || {
    tail -n 20 "$work/build.log" >&2
    fail "the build of $crate failed"
  }
}

# For the same level of x86-64 as Rattle's compiler, where the machine is one.
build_rust() {
  local level=()
  if ! command -v rustc >/dev/null; then
    echo "no rustc on the path: flume is measured alone"
    return
  fi
  if [ "$(uname -m)" = x86_64 ]; then level=(-C target-cpu=x86-64-v2); fi
  rustc --edition 2024 -O "${level[@]}" -o "$work/seats" "$here/bench/seats.rs" ||
    fail "rustc refused bench/seats.rs"
  rust=$work/seats
}

# The least microseconds of the rounds behind a warm one: of the processor (field 3), or from beginning
# to end (field 4).
least_of() {
  local field=$1 least=999999999 round spent
  shift
  for ((round = 0; round <= rounds; round++)); do
    spent=$("$@" | cut -d ' ' -f "$field")
    if ((round > 0 && spent < least)); then least=$spent; fi
  done
  echo "$least"
}

# One line: the nanoseconds for one of the count.
tell() { tell_field 3 "$@"; }

# The same from beginning to end.
tell_wall() { tell_field 4 "$@"; }

tell_field() {
  local field=$1 name=$2 count=$3
  shift 3
  least_of "$field" "$@" | awk -v name="$name" -v count="$count" '{ printf "%-34s %10.1f ms %9.1f ns each\n", name, $1 / 1000, $1 * 1000 / count }'
}

build_flume
build_rust
echo "$lives of each, least user plus system time of $rounds rounds"
tell "lives, seats of one thread" "$lives" "$flume" plain "$lives" time
tell "lives, seats that threads share" "$lives" "$flume" shared "$lives" time
tell "rows, a seat of one thread" "$lives" "$flume" plain-rows "$lives" time
tell "rows, a seat that threads share" "$lives" "$flume" shared-rows "$lives" time
tell "notes, seats of one thread" "$lives" "$flume" plain-notes "$lives" time
tell "notes, seats that threads share" "$lives" "$flume" shared-notes "$lives" time
if [ -n "$rust" ]; then
  tell "Rust, nine steps a life" "$lives" "$rust" steps "$lives"
  tell "Rust, ten steps and six events" "$lives" "$rust" rows "$lives"
  tell "Rust, notes" "$lives" "$rust" notes "$lives"
fi
echo "from beginning to end"
tell_wall "notes of one thread" "$((lives * 2))" "$flume" shared-notes "$((lives * 2))" time
tell_wall "notes of two threads, half each" "$((lives * 2))" "$flume" two-threads-note "$lives" time
tell_wall "rows of one thread, not leased" "$lives" "$flume" one-works "$lives" time
tell_wall "rows of four threads, a fourth each" "$lives" "$flume" four-work "$lives" time
if [ -n "$rust" ]; then
  tell_wall "Rust, rows of one thread" "$lives" "$rust" one-works "$lives"
  tell_wall "Rust, rows of four, one stamp word" "$lives" "$rust" four-work "$lives"
  tell_wall "Rust, rows of four, a word each" "$lives" "$rust" four-work-apart "$lives"
  tell_wall "Rust, steps of one thread" "$((lives * 4))" "$rust" one-adds "$((lives * 4))"
  tell_wall "Rust, steps of four, one word" "$((lives * 4))" "$rust" four-add "$((lives * 4))"
  tell_wall "Rust, steps of four, a word each" "$((lives * 4))" "$rust" four-add-apart "$((lives * 4))"
fi
