#!/usr/bin/env bash
# Measures `flume eval` with 4 hands and with 1, and with 1 beside `flume run` with the same steps, and, where it is there, GNU
# parallel: wall time, and user plus system time, the least of the rounds of each. `run` is measured over the front of the file that
# the step `csv` takes as a whole, and so is one hand beside it. It asserts nothing but that both numbers of hands print the same, and
# that one hand gives what `run` does; the numbers are for a reader.
#
# usage: bench/eval.sh [MEGABYTES [ROUNDS]]
set -eu
here=$(cd "$(dirname "$(readlink -f "$0")")/.." && pwd)
flume=${FLUME:-$here/crates/flume/out/flume}
megabytes=${1:-64}
rounds=${2:-5}
work=$(mktemp -d /dev/shm/flume_bench.XXXXXX)
trap 'rm -rf "$work"' EXIT

# The first call proves and builds the program.
[ -n "${FLUME:-}" ] || "$here/flume" cat "$here/crates/flume/data/a" >/dev/null

# Lines of two fields, some of which have the word; whole ones, of so many megabytes at most.
yes $'a line of text,that says the same\nanother one,of text\nand here,is the needle' 2>/dev/null |
  head -c "$((1048576 * megabytes))" | sed '$d' >"$work/a" || :
head -c 16000000 "$work/a" | sed '$d' >"$work/front"

# The wall time and the user plus system time of a command in milliseconds.
spent_by() {
  local TIMEFORMAT='%3R %3U %3S'
  { time "$@" >/dev/null; } 2>"$work/time"
  awk '{ printf "%d %d\n", $1 * 1000 + 0.5, ($2 + $3) * 1000 + 0.5 }' "$work/time"
}

# The least of the rounds of a command: wall time, and user plus system time. The first round warms, and is left out.
least_of() {
  local round
  for ((round = 0; round <= rounds; round++)); do
    spent_by "$@"
  done | awk 'NR > 1 { if (NR == 2 || $1 < w) w = $1; if (NR == 2 || $2 < c) c = $2 } END { print w, c }'
}

# The payloads that were printed, behind each other.
payloads() {
  python3 -c '
import sys
data, at = sys.stdin.buffer.read(), 0
while not data.startswith(b"end ", at):
    line = data.index(b"\n", at)
    size = int(data[at:line].split()[1])
    sys.stdout.buffer.write(data[line + 1 : line + 1 + size])
    at = line + size + 2
'
}

runs() { "$flume" run <"$work/description"; }

side_by_side() { parallel --will-cite --pipe -k -j 4 grep needle <"$work/a"; }

same() {
  cmp -s "$1" "$2" || {
    echo "$steps: $3" >&2
    exit 1
  }
}

echo "$megabytes MB, least of $rounds rounds, in ms: wall, user plus system"
for steps in 'lines|filter needle' 'csv|field 1'; do
  "$flume" eval --jobs 1 "$work/a" "$steps" | cksum >"$work/one"
  "$flume" eval --jobs 4 "$work/a" "$steps" | cksum >"$work/four"
  same "$work/one" "$work/four" "four hands print otherwise than one"
  printf '[[stream]]\npath = "%s"\nsteps = ["%s"]\n' "$work/front" "${steps//|/\", \"}" >"$work/description"
  "$flume" eval --jobs 1 "$work/front" "$steps" | payloads | cksum >"$work/one"
  runs | payloads | cksum >"$work/run"
  same "$work/one" "$work/run" "one hand gives other lines than run"
  read -r one_wall one <<<"$(least_of "$flume" eval --jobs 1 "$work/a" "$steps")"
  read -r four_wall four <<<"$(least_of "$flume" eval --jobs 4 "$work/a" "$steps")"
  echo "$steps: 1 hand $one_wall, $one; 4 hands $four_wall, $four"
  read -r front_wall front <<<"$(least_of "$flume" eval --jobs 1 "$work/front" "$steps")"
  read -r run_wall run <<<"$(least_of runs)"
  echo "  over 16 MB: 1 hand $front_wall, $front; run $run_wall, $run"
  awk -v a="$one_wall" -v b="$four_wall" -v c="$one" -v d="$four" -v e="$front" -v f="$run" \
    'BEGIN { printf "  4 hands by 1: wall %.2f, user plus system %.2f; 1 hand by run: user plus system %.2f\n", b / a, d / c, e / f }'
done
if command -v parallel >/dev/null; then
  read -r wall spent <<<"$(least_of side_by_side)"
  echo "parallel --pipe -k -j 4 grep needle: $wall, $spent"
fi
