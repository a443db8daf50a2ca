#!/usr/bin/env bash
# Counts the instructions of whole programs by `hydra plain` and by Lua 5.4, with valgrind's callgrind, and prints how many times
# Lua's count ours is. Both must print the same. The counts come out the same each time, whatever else the machine does.
#
#   bench/instructions.sh [NAME..]      the programs of these names; all of programs/, shapes/ and others/ if none is named
#
# The proved program is wanted: (cd crates/hydra && rt run -- --help) builds it. HYDRA names another one.
set -euo pipefail
cd "$(dirname "$0")"
hydra=${HYDRA:-../crates/hydra/out/hydra}
[ -x "$hydra" ] || { echo "build $hydra first" >&2; exit 2; }
work=$(mktemp -d)
trap 'rm -rf "$work"' EXIT

# how many instructions a command takes; what it prints goes to $work/printed
count_of() {
  valgrind --tool=callgrind --callgrind-out-file=/dev/null "$@" 2> "$work/said" > "$work/printed"
  sed -n 's/.*Collected *: *\([0-9]*\).*/\1/p' "$work/said"
}

# whether a program is wanted
wanted() {
  local name=$1
  shift
  [ $# -eq 0 ] && return 0
  for one in "$@"; do [ "$one" = "$name" ] && return 0; done
  return 1
}

printf '%-24s %14s %14s %8s\n' program hydra lua 'to lua'
for folder in programs shapes others; do
  ratios=
  for source in "$folder"/*.hc; do
    name=$(basename "$source" .hc)
    wanted "$name" "$@" || continue
    ours=$(count_of "$hydra" plain "$source" --steps 10000000000)
    cp "$work/printed" "$work/ours"
    # a loop whose counter is carried, or whose main has more locals, has the Lua of the one without
    plain=${name%_carried}
    theirs=$(count_of lua5.4 "$folder/${plain%_locals}.lua")
    cmp -s "$work/printed" "$work/ours" || { echo "$name: Lua prints something else" >&2; exit 1; }
    ratio=$(awk "BEGIN { printf \"%.2f\", $theirs / $ours }")
    ratios="$ratios $ratio"
    printf '%-24s %14d %14d %8s\n' "$name" "$ours" "$theirs" "$ratio"
  done
  [ -z "$ratios" ] || echo $ratios | awk -v f="$folder" '{ p = 1; m = $1
    for (i = 1; i <= NF; i++) { p *= $i; if ($i < m) m = $i }
    printf "%s: geometric mean %.2f, least %.2f\n", f, p ^ (1 / NF), m }'
done
