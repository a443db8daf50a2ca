#!/usr/bin/env bash
# What tables cost, in instructions by callgrind: a word looked for among others in three ways, and the calls of a board with 8
# iterations active, by the size of their tables.
#
#   bench/tables.sh [OTHER]      OTHER is another built hydra, whose calls are counted in the same run; SIZES="16 512" leaves the rest out
#
# The proved programs are wanted: (cd crates/hx_bench && rt run) and (cd crates/hydra && rt run -- --help) build them.
set -euo pipefail
cd "$(dirname "$0")"
bench=../crates/hx_bench/out/hx_bench
hydra=../crates/hydra/out/hydra
for program in "$bench" "$hydra"; do
  [ -x "$program" ] || { echo "build $program first" >&2; exit 2; }
done
command -v valgrind > /dev/null || { echo "valgrind is wanted" >&2; exit 2; }
work=$(mktemp -d)
trap 'rm -rf "$work"' EXIT

# the instructions of one run
instructions() {
  valgrind --tool=callgrind --callgrind-out-file="$work/out" "$@" 2>&1 | awk '/Collected/ { print $4 }'
}

printf '%-10s %10s %10s %10s\n' 'words' lanes halves ones
for length in 4 16 64 512 4096; do
  line=$length
  for way in lanes halves ones; do
    less=$(instructions "$bench" "$way" "$length" 10000)
    more=$(instructions "$bench" "$way" "$length" 20000)
    line="$line $(( (more - less) / 10000 ))"
  done
  printf '%-10s %10s %10s %10s\n' $line
done

# 8 turns, each of which reads so many words that no turn writes, and writes as many that no turn reads
program() {
  cat <<END
int a[4096];
int b[4096];
int main() {
  pfor (int i = 0; i < 8; i++) {
    int k;
    int t = 0;
    for (k = 0; k < $1; k++) t += a[k];
    for (k = 0; k < $1; k++) b[k] = t + i;
  }
}
END
}

# all begin; each reads, each writes, one word at a time; each settles
schedule() {
  python3 -c "print('01234567' * (1 + 2 * $1) + ''.join(d * 2 for d in '01234567'))"
}

# calls and instructions of each kind of call, a line each
calls_of() {
  program "$2" > "$work/program.hc"
  valgrind --tool=callgrind --callgrind-out-file="$work/calls" "$1" replay "$work/program.hc" "$(schedule "$2")" --workers 8 --marks 4096 --buffer 4096 > "$work/printed" 2> /dev/null
  grep -q '^turns 8$' "$work/printed" || { echo "the turns aren't whole" >&2; exit 1; }
  python3 - "$work/calls" <<'END'
import re, sys
names, calls, cost, callee, count = {}, {}, {}, None, 0
for line in open(sys.argv[1]):
    if line.startswith(("fn=", "cfn=")):
        key, _, name = line.strip().partition("=")[2].partition(" ")
        names.setdefault(key, name)
        if line.startswith("cfn="):
            callee = names[key]
    elif line.startswith("calls="):
        count = int(line[6:].split()[0])
    elif count and callee:
        calls[callee] = calls.get(callee, 0) + count
        cost[callee] = cost.get(callee, 0) + int(line.split()[1])
        count = 0
for kind in ("start_own", "load", "store", "settle_own"):
    own = [n for n in calls if re.search(r"hx_board.*Board.*\b" + kind + r"\b", n)]
    print(kind, sum(calls[n] for n in own), sum(cost[n] for n in own))
END
}

# a load and a store with tables of so many words: what the last 8 of each turn cost; the other calls: all of them
price() {
  calls_of "$1" "$2" > "$work/more"
  calls_of "$1" $(( $2 - 8 )) > "$work/less"
  paste -d' ' "$work/more" "$work/less" | awk '{
    if ($1 == "load" || $1 == "store") price = ($3 - $6) / ($2 - $5)
    else price = $2 ? $3 / $2 : 0
    printf " %.0f", price }'
}

echo
printf '%-10s %-8s %10s %10s %10s %10s\n' 'words' '' start_own load store settle_own
for size in ${SIZES:-16 512 4096}; do
  printf '%-10s %-8s %10s %10s %10s %10s\n' "$size" this $(price "$hydra" "$size")
  [ $# -eq 0 ] || printf '%-10s %-8s %10s %10s %10s %10s\n' "$size" other $(price "$1" "$size")
done
