#!/usr/bin/env bash
# Makes test sources of hx_tests_runs from the programs of this folder and of examples/, since a test can read no file.
#
#   forms/write_tests.sh           writes them
#   forms/write_tests.sh --check   tells which of the committed ones are not up to date
#
# Each folder of programs, forms/TOPIC and examples, gives one file, crates/hx_tests_runs/src/forms/TOPIC.rt. A program is
#   NAME.hc    its source. A line `// Whole turns: N.` says how many whole turns it has; without one they aren't compared
#   NAME.in    its input text, where it reads one
#   NAME.out   what it prints
#   NAME.end   what its `main` returns, where that isn't 0
# The last two come from a C compiler, and the turns are compared with one: `examples/with_gcc.sh --write --in forms`.
set -euo pipefail
cd "$(dirname "$0")/.."

tests=crates/hx_tests_runs/src/forms
most_lines=800

# the bytes of a file as the inside of a byte string
escaped() {
  od -An -v -t u1 "$1" | awk '
    {
      for (i = 1; i <= NF; i++) {
        if ($i == 10) printf "\\n"
        else if ($i == 34 || $i == 92) printf "\\%c", $i
        else if ($i >= 32 && $i < 127) printf "%c", $i
        else printf "\\x%02x", $i
      }
    }'
}

# a source or an input text as it stands, between quotes
verbatim() {
  if LC_ALL=C grep -q '["\\]' "$1" || LC_ALL=C grep -q -P '[^\x0a\x20-\x7e]' "$1"; then
    printf 'b"%s"' "$(escaped "$1")"
  else
    printf 'br"'
    cat "$1"
    printf '"'
  fi
}

# one program, indented by so many blanks
program() {
  local path=$1 indent=$2 turns
  if [ ! -f "$path.out" ]; then
    echo "write_tests: $path.out is missing; examples/with_gcc.sh --write makes it" >&2
    return 1
  fi
  turns=$(sed -n 's|^// Whole turns: \([0-9]*\)\.$|Some(\1)|p' "$path.hc")
  printf 'Program {\n%s    name: "%s",\n%s    source: ' "$indent" "$path" "$indent"
  verbatim "$path.hc"
  printf ',\n%s    input: ' "$indent"
  if [ -f "$path.in" ]; then verbatim "$path.in"; else printf 'b""'; fi
  printf ',\n%s    text: b"%s",\n' "$indent" "$(escaped "$path.out")"
  printf '%s    returned: %s,\n' "$indent" "$(cat "$path.end" 2>/dev/null || echo 0)"
  printf '%s    turns: %s,\n%s}' "$indent" "${turns:-None}" "$indent"
}

# one test for all programs of a folder
test_of_all() {
  local path
  cat <<END_OF_TEST
use super::{Program, all_hold};

#[test]
fn programs_hold(rt: HostRuntime) {
    all_hold(&rt, rt.alloc(), &PROGRAMS);
}

const PROGRAMS: [Program<'static>; $#] = [
END_OF_TEST
  for path in "$@"; do
    printf '    '
    program "$path" '    '
    echo ,
  done
  echo '];'
}

# a test for each program: the examples run longer
test_of_each() {
  local path name
  echo 'use super::{Program, holds};'
  for path in "$@"; do
    name=$(basename "$path")
    cat <<END_OF_TEST

#[test]
fn $name(rt: HostRuntime) {
    holds(&rt, rt.alloc(), ${name^^});
}

END_OF_TEST
    printf "const %s: Program<'static> = " "${name^^}"
    program "$path" ''
    echo ';'
  done
}

# the whole test source of a folder
test_source() {
  local folder=$1 paths=() file
  for file in "$folder"/*.hc; do paths+=("${file%.hc}"); done
  echo "// Made by forms/write_tests.sh from the programs in $folder and from what a C compiler makes of them."
  echo '// Change those and run the script again, and never this file.'
  echo
  if [ "$folder" = examples ]; then test_of_each "${paths[@]}"; else test_of_all "${paths[@]}"; fi
}

is_checking=false
if [ "${1-}" = --check ]; then is_checking=true; fi

work=$(mktemp -d)
trap 'rm -rf "$work"' EXIT
failed=0
for folder in examples forms/*/; do
  folder=${folder%/}
  topic=$(basename "$folder")
  test_source "$folder" > "$work/$topic.rt"
  if [ "$(wc -l < "$work/$topic.rt")" -gt "$most_lines" ]; then
    echo "$topic: more than $most_lines lines; split the folder"
    failed=$((failed + 1))
  elif ! grep -qx "mod $topic;" "$tests.rt"; then
    echo "$topic: $tests.rt has no line 'mod $topic;'"
    failed=$((failed + 1))
  elif ! $is_checking; then
    mkdir -p "$tests"
    cp "$work/$topic.rt" "$tests/$topic.rt"
    echo "$topic: written"
  elif cmp -s "$work/$topic.rt" "$tests/$topic.rt"; then
    echo "$topic: up to date"
  else
    echo "$topic: not up to date"
    failed=$((failed + 1))
  fi
done
# a test source whose folder is gone
for file in "$tests"/*.rt; do
  if [ -f "$file" ] && [ ! -f "$work/$(basename "$file")" ]; then
    echo "$file: no such folder of programs"
    failed=$((failed + 1))
  fi
done
[ "$failed" -eq 0 ]
