#!/usr/bin/env bash
# Runs programs by a C compiler, and compares what they print with the .out files beside them, what their `main` returns
# with the .end files (where it returns 0 there is none), and how many whole turns they have with the line
# `// Whole turns: N.` of those that have such a line.
#
#   examples/with_gcc.sh                   compares every example
#   examples/with_gcc.sh NAME..            compares these
#   examples/with_gcc.sh --in FOLDER ..    does it with the programs of another folder and of the folders in it
#   examples/with_gcc.sh --write ..        writes the .out and .end files anew, and compares turns alone
#
# A marked loop gives what the plain loop gives, so `pfor` is compiled as `for` and `pwhile` as `while`. Turns are counted by
# a second build, in which the test of a marked loop counts how often it is come to: once more than there are whole turns.
# `-fwrapv` makes sums, differences and products wrap. The other places where C leaves more open than
# the language does are kept out of the programs, and the sanitizer watches them: every local is
# set before it is read, every index is in range, shift amounts are from 0 to 31, each int function returns
# a value, and functions stand before their callers.
# The compiler is $CC, else gcc.
set -euo pipefail

folder=$(dirname "$0")
is_writing=false
while [ $# -gt 0 ]; do
  case $1 in
    --write) is_writing=true; shift ;;
    --in) folder=${2?--in wants a folder}; shift 2 ;;
    *) break ;;
  esac
done
cd "$folder"

compiler=${CC:-gcc}
# Warnings of form alone are left out: some programs are there for just these forms.
flags=(-std=gnu11 -O1 -fwrapv -Wall -Wextra -Werror -Wno-parentheses -Wno-empty-body -Wno-misleading-indentation)
watch=(-fsanitize=undefined,address -fno-sanitize-recover=all)

work=$(mktemp -d)
trap 'rm -rf "$work"' EXIT

# what every program is compiled with
cat > "$work/prelude.h" <<'END'
#define pfor for
#define pwhile while
void print(int number);
void emit(int byte);
END

# and what it is compiled with to have its whole turns counted; only loops that are entered while none is active count
cat > "$work/counting.h" <<'END'
struct mark_ { int is_left, is_begun, counts; };
extern long whole_turns_;
static int is_active_;
static void test_mark_(struct mark_ *mark) {
  if (mark->is_begun) {
    whole_turns_ += mark->counts;
  } else {
    mark->is_begun = 1;
    mark->counts = !is_active_;
    is_active_ = 1;
  }
}
static void leave_mark_(struct mark_ *mark) {
  if (mark->counts) is_active_ = 0;
}
void print(int number);
void emit(int byte);
END

# prints, reads the input text, and fills `in` and `n_in` where the program has them
cat > "$work/driver.c" <<'END'
#include <ctype.h>
#include <errno.h>
#include <stdio.h>
#include <stdlib.h>

int program_main(void);
long whole_turns_;
#ifdef IN_WORDS
extern int in[];
#else
#define IN_WORDS 0
static int in[1];
#endif
#ifdef HAS_COUNT
extern int n_in;
#else
static int n_in;
#endif

void print(int number) { printf("%d\n", number); }
void emit(int byte) { putchar(byte & 255); }

static void refuse(const char *why) {
  fprintf(stderr, "with_gcc: %s\n", why);
  exit(2);
}

/* one number of the input text: 0, or an optional minus and digits that don't begin with 0 */
static int number_of(const char *word) {
  const char *digits = word[0] == '-' ? word + 1 : word;
  if (!isdigit((unsigned char)digits[0])) refuse("the input has what is no number");
  if (digits[0] == '0' && word[1] != '\0') refuse("the input has a number with a 0 or a sign too many");
  char *end;
  errno = 0;
  long long number = strtoll(word, &end, 10);
  if (*end != '\0') refuse("the input has what is no number");
  if (errno != 0 || number < -2147483648LL || number > 2147483647LL) refuse("the input has a number past 32 bits");
  return (int)number;
}

static void write_number(const char *name, long number) {
  FILE *file = fopen(name, "wb");
  if (file == NULL) refuse("a file doesn't open");
  fprintf(file, "%ld\n", number);
  if (fclose(file) != 0) refuse("a number isn't written");
}

/* the words: files for what `main` returns and for the whole turns; and the input, if any */
int main(int count, char **words) {
  if (count < 3) refuse("files are missing");
  n_in = 0;
  if (count > 3) {
    FILE *file = fopen(words[3], "rb");
    if (file == NULL) refuse("the input doesn't open");
    char word[32];
    while (fscanf(file, "%31s", word) == 1) {
      if (n_in == IN_WORDS) refuse("the input is longer than the array `in`");
      in[n_in] = number_of(word);
      n_in++;
    }
    fclose(file);
  }
  write_number(words[1], program_main());
  write_number(words[2], whole_turns_);
  return fflush(stdout) == 0 ? 0 : 4;
}
END

# runs a source, which is compiled with these flags; what its `main` returns and its whole turns go into two files
run_source() {
  local name=$1 source=$2 defines=() input=() size
  shift 2
  "$compiler" "$@" -x c -c "$source" -o "$work/$name.o"
  # the driver has a main of its own
  objcopy --redefine-sym main=program_main "$work/$name.o"
  # the words of `in`, as the size of its symbol says
  size=$(nm -S --defined-only "$work/$name.o" | awk '$4 == "in" && $3 ~ /[BD]/ { print $2 }')
  if [ -n "$size" ]; then defines+=("-DIN_WORDS=$((16#$size / 4))"); fi
  # an int has 4 bytes; an array of more words is no count
  size=$(nm -S --defined-only "$work/$name.o" | awk '$4 == "n_in" && $3 ~ /[BD]/ { print $2 }')
  if [ -n "$size" ] && [ $((16#$size)) -eq 4 ]; then defines+=(-DHAS_COUNT); fi
  "$compiler" "$@" "${defines[@]}" "$work/driver.c" -x none "$work/$name.o" -o "$work/$name"
  if [ -f "$name.in" ]; then input+=("$name.in"); fi
  "$work/$name" "$work/$name.end" "$work/$name.turns" "${input[@]}"
}

# a source with the tests of its marked loops counted
counted() {
  sed 's|//.*||' "$1" | awk '
    { text = text "\n" $0 }
    END {
      while (match(text, /[^A-Za-z0-9_](pfor|pwhile)[ \t\n]*[(]/)) {
        printf "%s", substr(text, 1, RSTART)
        is_for = substr(text, RSTART + 2, 1) == "f"
        text = substr(text, RSTART + RLENGTH)
        clause[1] = clause[2] = clause[3] = ""
        at = is_for ? 1 : 2
        depth = 1
        for (i = 1; ; i++) {
          byte = substr(text, i, 1)
          if (byte == "(") depth++
          if (byte == ")") depth--
          if (depth == 0) break
          if (byte == ";") at++; else clause[at] = clause[at] byte
        }
        text = substr(text, i + 1)
        test = clause[2] ~ /[^ \t\n]/ ? clause[2] : "1"
        printf "for (struct mark_ mark_ __attribute__((cleanup(leave_mark_))) = {0}; !mark_.is_left; mark_.is_left = 1) "
        printf "for (%s; test_mark_(&mark_), (%s); %s)", clause[1], test, clause[3]
      }
      print text
    }'
}

# whether a program has the whole turns that its line says, if it has one
has_its_turns() {
  local name=$1 said
  said=$(sed -n 's|^// Whole turns: \([0-9]*\)\.$|\1|p' "$name.hc")
  if [ -z "$said" ]; then return 0; fi
  counted "$name.hc" > "$work/$name.c"
  run_source "$name" "$work/$name.c" -std=gnu11 -O0 -fwrapv -w -include "$work/counting.h" > /dev/null
  if [ "$said" != "$(cat "$work/$name.turns")" ]; then
    echo "$name: has $(cat "$work/$name.turns") whole turns, and says $said"
    return 1
  fi
}

names=("$@")
if [ ${#names[@]} -eq 0 ]; then
  while IFS= read -r file; do names+=("${file%.hc}"); done < <(find . -name '*.hc' -printf '%P\n' | LC_ALL=C sort)
fi

failed=0
for name in "${names[@]}"; do
  mkdir -p "$work/$(dirname "$name")"
  run_source "$name" "$name.hc" "${flags[@]}" "${watch[@]}" -include "$work/prelude.h" > "$work/$name.out"
  end=$(cat "$work/$name.end")
  if ! has_its_turns "$name"; then
    failed=$((failed + 1))
  elif $is_writing; then
    cp "$work/$name.out" "$name.out"
    if [ "$end" != 0 ]; then echo "$end" > "$name.end"; else rm -f "$name.end"; fi
    echo "$name: written"
  elif [ -f "$name.out" ] && cmp -s "$work/$name.out" "$name.out" && [ "$end" = "$(cat "$name.end" 2>/dev/null || echo 0)" ]; then
    echo "$name: the same"
  else
    echo "$name: not the same"
    failed=$((failed + 1))
  fi
done
[ "$failed" -eq 0 ]
