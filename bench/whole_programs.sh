#!/usr/bin/env bash
# Runs whole programs by `hydra plain`, by Lua 5.4 and by `gcc -O0`, where these are installed, and prints their processor
# times in milliseconds and how many times Lua's time ours is. All three must print the same.
#
#   bench/whole_programs.sh [ROUNDS]      the best of so many runs, 3 if none is named
#
# The proved program is wanted: (cd crates/hydra && rt run -- --help) builds it.
set -euo pipefail
cd "$(dirname "$0")"
rounds=${1:-3}
hydra=../crates/hydra/out/hydra
[ -x "$hydra" ] || { echo "build $hydra first" >&2; exit 2; }
work=$(mktemp -d)
trap 'rm -rf "$work"' EXIT

# the least processor time of some runs, in milliseconds: what else the machine does tells on it less than on the clock
best_of() {
  local best= took TIMEFORMAT=%U
  for _ in $(seq "$rounds"); do
    took=$( { time "$@" > "$work/printed"; } 2>&1 )
    took=$(awk "BEGIN { print $took * 1000 }")
    if [ -z "$best" ] || [ "$took" -lt "$best" ]; then best=$took; fi
  done
  echo "$best"
}

printf '%-12s %10s %10s %10s %10s\n' program 'hydra ms' 'lua ms' 'gcc ms' 'to lua'
ratios=
for source in programs/*.hc; do
  name=$(basename "$source" .hc)
  ours=$(best_of "$hydra" plain "$source" --steps 10000000000)
  cp "$work/printed" "$work/$name.out"
  lua=- c=- ratio=-
  if command -v lua5.4 > /dev/null; then
    lua=$(best_of lua5.4 "programs/$name.lua")
    cmp -s "$work/printed" "$work/$name.out" || { echo "$name: Lua prints something else" >&2; exit 1; }
    ratio=$(awk "BEGIN { printf \"%.2f\", $ours / $lua }")
    ratios="$ratios $ratio"
  fi
  if command -v gcc > /dev/null; then
    { echo '#include <stdio.h>'; echo '#define print(e) printf("%d\n", (e))'; cat "$source"; } > "$work/$name.c"
    gcc -O0 -fwrapv -o "$work/$name" "$work/$name.c"
    c=$(best_of "$work/$name")
    cmp -s "$work/printed" "$work/$name.out" || { echo "$name: the C program prints something else" >&2; exit 1; }
  fi
  awk -v n="$name" -v a="$ours" -v b="$lua" -v c="$c" -v r="$ratio" 'BEGIN {
    printf "%-12s %10s %10s %10s %10s\n", n, a, b, c, r }'
done
[ -z "$ratios" ] || echo $ratios | awk '{ p = 1; for (i = 1; i <= NF; i++) p *= $i; printf "geometric mean of our time over that of Lua: %.2f\n", p ^ (1 / NF) }'
