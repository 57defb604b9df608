#!/usr/bin/env bash
# Shows that the judge of random calls sees something: of each sort of lie (fuzz/lies.py) how many calls
# it took until the judge found it, and in what time. Fails where one isn't found within a minute of a
# processor's time.
#
# usage: fuzz/lies.sh [SEED]
set -u
here=$(cd "$(dirname "$(readlink -f "$0")")" && pwd)
status=0
for lie in $(cd "$here" && python3 -c 'import lies; print(*lies.LIES)'); do
  told=$(ulimit -t 60; python3 "$here/runs.py" --seed "${1:-1}" --lie "$lie" --until-found --quiet | tail -n 1)
  printf '%-20s %s\n' "$lie" "$told"
  [[ $told == *' 1 wrong'* ]] || status=1
done
exit "$status"
