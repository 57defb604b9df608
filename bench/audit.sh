#!/usr/bin/env bash
# Measures the audit of ledgers: `flume audit` of the largest text that it accepts, of several shapes
# (bench/ledgers.py), beside the same rules in Python (bench/audit.py): user plus system time of whole
# runs, in turns, and that of a ledger of half as many parts.
# The shapes from `lent` on are written to cost much: Python is asked about small ones of them alone.
# It asserts nothing but that both find each ledger in order, and the same line of one that isn't; the
# numbers are for a reader.
# Needs rt, python3, and GNU time as /usr/bin/time.
#
# usage: bench/audit.sh [ROUNDS [REPEATS [SHAPE..]]]
set -eu
here=$(cd "$(dirname "$(readlink -f "$0")")/.." && pwd)
flume=${FLUME:-$here/crates/flume/out/flume}
rounds=${1:-5}
repeats=${2:-10}
shapes=("${@:3}")
plain=(streams tables rows turns nested)
hostile=(lent deep below beside beside_each before ladder waiting waiting_beside begun nested_leases children)
if ((${#shapes[@]} == 0)); then shapes=("${plain[@]}" "${hostile[@]}"); fi
work=$(mktemp -d /dev/shm/flume_audit.XXXXXX)
trap 'rm -rf "$work"' EXIT

fail() {
  echo "$1" >&2
  exit 1
}

run_flume() {
  "$flume" audit <"$work/$1"
}

run_python() {
  python3 "$here/bench/audit.py" <"$work/$1"
}

is_plain() {
  case " ${plain[*]} " in *" $1 "*) return 0 ;; *) return 1 ;; esac
}

# The ledger with its line I, from 1 behind the head, left out, which its head tells.
drop_line() {
  awk -v line="$2" 'NR == 1 { print $1, $2 - 1; next } NR != line + 1' "$work/$1" >"$work/$1.broken"
}

# Both answer the same, with the status that the answer has.
compare_answers() {
  local status=0
  run_flume "$1" >"$work/flume.out" || status=$?
  run_python "$1" >"$work/python.out"
  cmp "$work/flume.out" "$work/python.out" || fail "flume and Python judge $1 otherwise"
  [ "$(cat "$work/flume.out")" = "$2" ] || fail "$1: $(cat "$work/flume.out")"
  [ "$status" = "$3" ] || fail "$1: status $status"
}

make_ledgers() {
  local shape=$1 events
  python3 "$here/bench/ledgers.py" "$shape" >"$work/$shape"
  python3 "$here/bench/ledgers.py" "$shape" half >"$work/$shape.half"
  (($(stat -c %s "$work/$shape") <= 524288)) || fail "$shape is too large"
  [ "$(run_flume "$shape")" = "audit ok" ] || fail "flume finds $shape not in order"
  [ "$(run_flume "$shape.half")" = "audit ok" ] || fail "flume finds the half of $shape not in order"
  if is_plain "$shape"; then cp "$work/$shape" "$work/$shape.asked"; else python3 "$here/bench/ledgers.py" "$shape" small >"$work/$shape.asked"; fi
  compare_answers "$shape.asked" "audit ok" 0
  events=$(head -n 1 "$work/$shape.asked" | cut -d ' ' -f 2)
  drop_line "$shape.asked" "$events"
  compare_answers "$shape.asked.broken" "audit end complete" 1
}

# The user plus system microseconds of a run, of some repeats.
spent_by() {
  local spent i count=$repeats
  if [ "$1" = python ]; then count=1; fi
  spent=$({ TIMEFORMAT='%3U %3S'; time for ((i = 0; i < count; i++)); do "run_$1" "$2" >"$work/out"; done; } 2>&1)
  awk -v count="$count" '{ printf "%d\n", ($1 + $2) * 1000000 / count + 0.5 }' <<<"$spent"
}

# One warm round, then the least of the others for each, in turns.
measure() {
  local shape=$1 round side spent
  declare -A least=()
  for ((round = 0; round <= rounds; round++)); do
    for side in "flume $shape" "flume $shape.half" "python $shape"; do
      if [ "$side" = "python $shape" ] && ! is_plain "$shape"; then continue; fi
      # shellcheck disable=SC2086
      spent=$(spent_by $side)
      if ((round > 0)) && { [ -z "${least[$side]-}" ] || ((spent < least[$side])); }; then least[$side]=$spent; fi
    done
  done
  awk -v shape="$shape" -v events="$(head -n 1 "$work/$shape" | cut -d ' ' -f 2)" -v whole="${least["flume $shape"]}" \
    -v half="${least["flume $shape.half"]}" -v python="${least["python $shape"]-0}" \
    'BEGIN { printf "%-14s %6d events: flume %7.1f ms, %7.1f ms at half, ratio %.2f", shape, events, whole / 1000, half / 1000, whole / half; if (python > 0) printf "; Python %7.1f ms", python / 1000; print "" }'
}

peak() {
  /usr/bin/time -o "$work/time" -f '%M' "$flume" audit <"$work/$1" >"$work/out"
  echo "peak memory of $1: $(cat "$work/time") KiB"
}

[ -x /usr/bin/time ] || fail "GNU time isn't there as /usr/bin/time"
command -v python3 >/dev/null || fail "python3 isn't on the path"
# The first call proves and builds the program.
if [ -z "${FLUME-}" ]; then "$here/flume" cat "$here/crates/flume/data/a" >/dev/null; fi
for shape in "${shapes[@]}"; do make_ledgers "$shape"; done
echo "least user plus system time of $rounds rounds of $repeats runs, text of at most 524288 bytes"
for shape in "${shapes[@]}"; do measure "$shape"; done
for shape in "${shapes[@]}"; do peak "$shape"; done
