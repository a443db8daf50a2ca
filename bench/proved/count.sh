#!/usr/bin/env bash
# Counts the instructions of codes by the plain machine as it is proved and as LLVM compiles it, with valgrind's callgrind, before the crates
# above hx_word are proved: what rustc makes of the same bodies (../rustc) may be twice that, or half. `hydra` takes 0.24 million more, to
# read a source.
#
#   bench/proved/count.sh LISTING..     listings of `hydra words`; globals begin as 0, and there is no input
#
# It proves hx_word and what is below, where that isn't kept (rt lib), and then a program over it that has these codes in it, which takes some three
# minutes. The program stays as ${KEPT:-/tmp/proved_codes}: run it with a code's name, or see which of its instructions are done most by hot.py.
set -euo pipefail
here=$(cd "$(dirname "${BASH_SOURCE[0]}")" && pwd)
crates=$here/../../crates
kit=$(dirname "$(rt doc)")
kept=${KEPT:-/tmp/proved_codes}
work=$(mktemp -d)
trap 'rm -rf "$work"' EXIT

(cd "$crates/hx_word" && rt lib > "$work/said" 2>&1) || { cat "$work/said" >&2; exit 1; }
mkdir "$work/src"
"$here/to_rattle.py" "$work/src/main.rt" "$@"
cd "$work"
words=(--crate-name codes src/main.rt --extern "std=$kit/rlibs/std.rlib" -L "dependency=$kit/rlibs")
for crate in hx_tree hx_code hx_exec hx_word; do words+=(--extern "$crate=$crates/$crate/out/rlib/$crate.rlib"); done
for folder in "$crates"/*/out/rlib; do words+=(-L "dependency=$folder"); done
words+=(--antt-project "$kit/rattle/logic/antt-project.json" --links codes=)
rattle=$kit/bin/rattle
"$rattle" check "${words[@]}" --logic-built "$kit/logic_built" --jobs 2 -o checked > said 2>&1 || { cat said >&2; exit 1; }
"$rattle" build "${words[@]}" --crate-checked checked --toolchain "$kit/toolchain" --backend llvm -o codes.o > said 2>&1 || { cat said >&2; exit 1; }
"$kit/bin/rattle-link" --target x86_64-unknown-linux-gnu --toolchain "$kit/toolchain" -o "$kept" codes.o "$kit/c/libos_c.a" "$kit/c/liblibc_c.a" > said 2>&1
for listing in "$@"; do
  name=$(basename "$listing" | cut -d. -f1)
  count=$(valgrind --tool=callgrind --callgrind-out-file=/dev/null "$kept" "$name" 2>&1 > printed | sed -n 's/.*Collected *: *\([0-9]*\).*/\1/p')
  printf '%-32s %14d  %s\n' "$name" "$count" "$(tail -1 printed)"
done
