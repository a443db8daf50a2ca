#!/usr/bin/env bash
# Makes a test source of hx_tests_commands from the list of refusals of LANGUAGE.md, since a test can read no file: the numbers that stand there,
# and the table of sources with their answers.
#
#   docs/write_test.sh           writes it
#   docs/write_test.sh --check   tells whether the committed one is up to date
set -euo pipefail
cd "$(dirname "$0")/.."

test=crates/hx_tests_commands/src/listed.rt

# section 14 alone
section() {
  awk '/^## /{ inside = ($2 == "14.") } inside' docs/LANGUAGE.md
}

# the numbers in the first column of the list
numbers() {
  section | sed -n 's/^| \([0-9][0-9]*\) |.*/\1/p'
}

# a row of the table of sources: the source, its number, its line and column, which are 0 where there is no place
rows() {
  section | sed -n \
    -e 's/^| the empty source | refused \([0-9]*\) |$/\t\1\t0\t0/p' \
    -e 's/^| `\(.*\)` | refused \([0-9]*\) at \([0-9]*\):\([0-9]*\) |$/\1\t\2\t\3\t\4/p' \
    -e 's/^| `\(.*\)` | refused \([0-9]*\) |$/\1\t\2\t0\t0/p'
}

write() {
  cat <<'HEAD'
// The list of refusals of docs/LANGUAGE.md, and its table of sources. docs/write_test.sh writes this file.

use hx_explain::refusal_texts;
use hx_run::compile;
use hx_tree::token::Pos;

HEAD
  printf 'const NUMBERS: &[u32] = &[\n%s\n];\n\n' "$(numbers | sed 's/$/,/' | paste -sd ' ' | fold -s -w 96 | sed 's/ *$//; s/^/    /')"
  printf '// A source, the number of its refusal, and the line and column of its place, or zeros.\n'
  printf 'const ROWS: &[(&[u8], u32, u32, u32)] = &[\n'
  rows | while IFS=$'\t' read -r source number line col; do
    printf '    (b"%s", %s, %s, %s),\n' "$source" "$number" "$line" "$col"
  done | sed 's/^    (b"\([0-9]*\)", \([0-9]*\), \([0-9]*\), ),$/    (b"", \1, \2, \3),/' | awk '
    length($0) <= 67 { print; next }
    { match($0, /", [0-9]+, [0-9]+, [0-9]+\),$/); split(substr($0, RSTART + 3), n, /, |\)/)
      printf "    (\n        %s,\n        %s,\n        %s,\n        %s,\n    ),\n", substr($0, 6, RSTART - 5), n[1], n[2], n[3] }'
  cat <<'TAIL'
];

#[test]
fn lists_the_numbers_that_are_explained(rt: HostRuntime) {
    for number in 0..100u32 {
        let is_listed = NUMBERS.contains(&number);
        assert_eq!(&rt; refusal_texts(number).is_some(), is_listed);
    }
}

#[test]
fn lists_sources_with_their_answers(rt: HostRuntime) {
    for (source, number, line, col) in ROWS {
        match compile(rt.alloc(), source) {
            Ok(_) => assert!(&rt; false),
            Err(refusal) => {
                let pos = refusal.pos().unwrap_or(Pos { line: 0, col: 0 });
                assert_eq!(&rt; refusal.number(), *number);
                assert_eq!(&rt; [pos.line, pos.col], [*line, *col]);
            }
        }
    }
}
TAIL
}

if [ "${1-}" = --check ]; then
  if diff <(write) "$test" > /dev/null; then
    echo "$test is up to date"
  else
    echo "$test is not up to date: docs/write_test.sh writes it" >&2
    exit 1
  fi
else
  write > "$test"
fi
