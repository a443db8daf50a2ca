#!/usr/bin/env bash
# How fast the plain machine goes through words: four codes written by hand (crates/hx_bench), in words a second by the clock
# and, where valgrind is installed, in instructions a word by callgrind, as the difference between two runs.
#
# The proved program is wanted: (cd crates/hx_bench && rt run) builds it.
set -euo pipefail
cd "$(dirname "$0")"
bench=../crates/hx_bench/out/hx_bench
[ -x "$bench" ] || { echo "build $bench first" >&2; exit 2; }
work=$(mktemp -d)
trap 'rm -rf "$work"' EXIT

instructions() {
  valgrind --tool=callgrind --callgrind-out-file="$work/out" "$bench" "$1" "$2" 2>&1 | awk '/Collected/ { print $4 }'
}

printf '%-10s %16s %18s\n' code 'words a second' 'instructions a word'
counts=
for code in locals arrays calls globals; do
  begin=$(date +%s%N)
  "$bench" "$code" 50000000 > /dev/null
  end=$(date +%s%N)
  rate=$(awk "BEGIN { printf \"%.0f\", 50000000 / (($end - $begin) / 1e9) }")
  count=-
  if command -v valgrind > /dev/null; then
    less=$(instructions "$code" 1000000)
    more=$(instructions "$code" 2000000)
    count=$(awk "BEGIN { printf \"%.1f\", ($more - $less) / 1000000 }")
    counts="$counts $count"
  fi
  printf '%-10s %16s %18s\n' "$code" "$rate" "$count"
done
[ -z "$counts" ] || echo $counts | awk '{ p = 1; for (i = 1; i <= NF; i++) p *= $i; printf "geometric mean: %.1f instructions a word\n", p ^ (1 / NF) }'
