#!/usr/bin/env bash
# Builds the plain machine of the crates as rustc compiles their bodies, without contracts, and counts what programs take by
# valgrind's callgrind. Nothing is proved of what it builds: it tells within a minute whether a body may be worth its proof. It takes a
# tenth to a half more than the proved program, since rustc leaves checks in that the proof makes needless, and it has other values in
# registers: a loop that was 2% slower here was 20% slower there. So count the proved program too, by ../instructions.sh.
#
#   bench/rustc/count.sh [--crates FOLDER] LISTING..     listings of `hydra words`; FOLDER in place of ../../crates
set -euo pipefail
here=$(cd "$(dirname "${BASH_SOURCE[0]}")" && pwd)
crates=$here/../../crates
if [ "${1-}" = --crates ]; then
  crates=$2
  shift 2
fi
work=$(mktemp -d)
trap 'rm -rf "$work"' EXIT
"$here/to_rust.py" "$crates" "$work/src"
rustc --edition 2021 --cap-lints allow -C opt-level=3 -C codegen-units=1 -C panic=abort -o "$work/plain" "$work/src/main.rs"
for listing in "$@"; do
  count=$(valgrind --tool=callgrind --callgrind-out-file=/dev/null "$work/plain" "$listing" 2>&1 > "$work/printed" |
    sed -n 's/.*Collected *: *\([0-9]*\).*/\1/p')
  printf '%-32s %14d  %s\n' "$(basename "$listing")" "$count" "$(tail -1 "$work/printed")"
done
