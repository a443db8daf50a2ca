#!/usr/bin/env bash
# Marked loops on 1, 2 and 4 workers beside one thread without speculation (`hydra plain`), in one run, by the clock: each
# figure is how many times as long or as short as `plain` a run took, the least of some rounds. All must print the same.
#
#   bench/speculation.sh [ROUNDS]      the best of so many rounds, 3 if none is named
#
# Groups: (a) independent turns that compute much and touch memory little; (b) turns that touch memory at each step; (c) turns
# that each need the one before. The column `4 at once` is what the machine itself has to give: how many times as much work four `plain`
# runs beside one another do in the time of one. Where valgrind is installed, (d) the price of a call on a board: the instructions of each kind,
# by callgrind, on one worker, over all calls of that kind in the programs of (c).
#
# The proved program is wanted: (cd crates/hydra && rt run -- --help) builds it.
set -euo pipefail
cd "$(dirname "$0")"
rounds=${1:-3}
hydra=../crates/hydra/out/hydra
[ -x "$hydra" ] || { echo "build $hydra first" >&2; exit 2; }
work=$(mktemp -d)
trap 'rm -rf "$work"' EXIT

# the least time of some runs by the clock, in milliseconds
best_of() {
  local best= begin took
  for _ in $(seq "$rounds"); do
    begin=$(date +%s%N)
    "$@" > "$work/printed"
    took=$(( ($(date +%s%N) - begin) / 1000000 ))
    if [ -z "$best" ] || [ "$took" -lt "$best" ]; then best=$took; fi
  done
  echo "$best"
}

# four runs of the program on one thread, beside one another
four_at_once() {
  for _ in 1 2 3 4; do "$hydra" plain "$1" --steps 10000000000 > /dev/null & done
  wait
}

printf '%-14s %9s %11s %11s %11s %11s\n' program 'plain ms' '1 worker' '2 workers' '4 workers' '4 at once'
for row in a:mandelbrot a:collatz a:queens b:sieve b:matrix b:prefix c:list c:sum; do
  name=${row#*:}
  source=speculation/$name.hc
  plain=$(best_of "$hydra" plain "$source" --steps 10000000000)
  cp "$work/printed" "$work/wanted"
  times=
  for workers in 1 2 4; do
    took=$(best_of "$hydra" run "$source" --workers "$workers")
    cmp -s "$work/printed" "$work/wanted" || { echo "$name prints something else on $workers workers" >&2; exit 1; }
    times="$times $took"
  done
  beside=$(best_of four_at_once "$source")
  echo "(${row%%:*}) $name $plain $times $beside" | awk '{ printf "%-14s %9d", $1 " " $2, $3
    for (i = 4; i < NF; i++) printf " %10.2fx", $3 / ($i + 0.5)
    printf " %10.2fx\n", 4 * $3 / ($NF + 0.5) }'
done

command -v valgrind > /dev/null || exit 0
echo
printf '%-14s %12s %20s\n' call calls 'instructions a call'
for name in list sum; do
  valgrind --tool=callgrind --callgrind-out-file="$work/$name.callgrind" "$hydra" run "speculation/$name.hc" --workers 1 > /dev/null 2>&1
done
python3 - "$work/list.callgrind" "$work/sum.callgrind" <<'END'
import re, sys
calls, cost = {}, {}
for path in sys.argv[1:]:
    names, callee, count = {}, None, 0
    for line in open(path):
        if line.startswith(("fn=", "cfn=")):
            key, _, name = line.strip().partition("=")[2].partition(" ")
            names.setdefault(key, name)
            if line.startswith("cfn="):
                callee = names[key]
        elif line.startswith("calls="):
            count = int(line[6:].split()[0])
        elif count and callee:
            calls[callee] = calls.get(callee, 0) + count
            cost[callee] = cost.get(callee, 0) + int(line.split()[1])
            count = 0
for kind in ("start_own", "load", "store", "head", "alive", "settle_own"):
    own = [n for n in calls if re.search(r"hx_board.*Board.*\b" + kind + r"\b", n)]
    if own:
        total = sum(calls[n] for n in own)
        print("%-14s %12d %20.0f" % (kind, total, sum(cost[n] for n in own) / total))
END
