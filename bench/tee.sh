#!/usr/bin/env bash
# Measures `flume tee` with four branches over one file beside each branch alone: wall time, and user plus system time, the least of
# the rounds of each. What one reading costs is that of a branch that wants nothing. It asserts nothing but that each branch prints
# the same beside others as alone; the numbers are for a reader.
#
# usage: bench/tee.sh [MEGABYTES [ROUNDS]]
set -eu
here=$(cd "$(dirname "$(readlink -f "$0")")/.." && pwd)
flume=${FLUME:-$here/crates/flume/out/flume}
megabytes=${1:-64}
rounds=${2:-5}
work=$(mktemp -d /dev/shm/flume_bench.XXXXXX)
trap 'rm -rf "$work"' EXIT
branches=('lines|count' utf8 'lines|filter needle' hex)

# The first call proves and builds the program.
[ -n "${FLUME:-}" ] || "$here/flume" cat "$here/crates/flume/data/a" >/dev/null

# Lines of text, some of which have the word, cut after so many megabytes.
yes $'a line of text that says the same as the next\nanother one of text\nand here is the needle, once in three' 2>/dev/null |
  head -c "$((1048576 * megabytes))" >"$work/a" || :

# The wall time and the user plus system time of a command in milliseconds.
spent_by() {
  local TIMEFORMAT='%3R %3U %3S'
  { time "$@" >/dev/null; } 2>"$work/time"
  awk '{ printf "%d %d\n", $1 * 1000 + 0.5, ($2 + $3) * 1000 + 0.5 }' "$work/time"
}

# The least of the rounds of a tee with these branches: wall time, and user plus system time. The first round warms, and is left out.
least_of() {
  local round
  for ((round = 0; round <= rounds; round++)); do
    spent_by "$flume" tee "$work/a" "$@"
  done | awk 'NR > 1 { if (NR == 2 || $1 < w) w = $1; if (NR == 2 || $2 < c) c = $2 } END { print w, c }'
}

# The payloads of a stream, behind each other.
payloads() {
  python3 -c '
import sys
stream, data, at = sys.argv[1].encode(), sys.stdin.buffer.read(), 0
while not data.startswith(b"end ", at):
    line = data.index(b"\n", at)
    who, size = data[at:line].split()
    at = line + 1 + int(size)
    if who == stream: sys.stdout.buffer.write(data[line + 1 : at])
    at += 1
' "$1"
}

"$flume" tee "$work/a" "${branches[@]}" >"$work/all"
for k in "${!branches[@]}"; do
  "$flume" tee "$work/a" "${branches[k]}" | payloads 0 >"$work/alone"
  payloads "$k" <"$work/all" | cmp - "$work/alone" || {
    echo "branch $k differs" >&2
    exit 1
  }
done
rm -f "$work/all" "$work/alone"

echo "$megabytes MB, least of $rounds rounds, in ms: wall, user plus system"
read -r wall reading <<<"$(least_of 'take 0')"
echo "a reading: $wall, $reading"
slowest=0 sum=0
for branch in "${branches[@]}"; do
  read -r wall spent <<<"$(least_of "$branch")"
  echo "$branch: $wall, $spent"
  slowest=$((wall > slowest ? wall : slowest)) sum=$((sum + spent))
done
read -r wall spent <<<"$(least_of "${branches[@]}")"
echo "all four: $wall, $spent"
awk -v w="$wall" -v l="$slowest" -v s="$spent" -v u="$((sum - 3 * reading))" \
  'BEGIN { printf "wall by the slowest alone %.2f, user plus system by the sum of all less three readings %.2f\n", w / l, s / u }'
