#!/usr/bin/env bash
# A thousand short marked loops, one after another: how long a run takes with workers that stay from loop to loop, beside another build
# of the program, as one whose `run` starts its threads anew for each loop (that of commit e39debb). Both in one run, by the clock, the
# least of some rounds; both must print the same.
#
#   bench/stations.sh OTHER [ROUNDS]     OTHER: the other build; the best of so many rounds, 5 if none is named
#
# The proved program is wanted: (cd crates/hydra && rt run -- --help) builds it.
set -euo pipefail
cd "$(dirname "$0")"
other=${1:?names the other build}
rounds=${2:-5}
hydra=../crates/hydra/out/hydra
[ -x "$hydra" ] || { echo "build $hydra first" >&2; exit 2; }
work=$(mktemp -d)
trap 'rm -rf "$work"' EXIT
echo 'int c; int main(){ int k; for(k=0;k<1000;k++) pfor(int i=0;i<2;i++) c+=k; print(c); }' > "$work/loops.hc"

# the least time of some runs by the clock, in microseconds
best_of() {
  local best= begin took
  for _ in $(seq "$rounds"); do
    begin=$(date +%s%N)
    "$@" > "$work/printed"
    took=$(( ($(date +%s%N) - begin) / 1000 ))
    [ "$(cat "$work/printed")" = 999000 ] || { echo "$* prints something else" >&2; exit 1; }
    if [ -z "$best" ] || [ "$took" -lt "$best" ]; then best=$took; fi
  done
  echo "$best"
}

printf '%-8s %14s %14s %8s\n' workers 'staying us' 'anew us' ratio
for workers in 1 2 4 8; do
  staying=$(best_of "$hydra" run "$work/loops.hc" --workers "$workers")
  anew=$(best_of "$other" run "$work/loops.hc" --workers "$workers")
  awk -v w="$workers" -v s="$staying" -v a="$anew" 'BEGIN { printf "%-8s %14d %14d %8.2f\n", w, s, a, s / a }'
done
