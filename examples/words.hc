// Word count over the input, a text given as the numbers of its bytes:
// prints how many lines, words and bytes it has. To make such an input of a text:
//     od -An -v -tu1 TEXT > words.in
int in[65000];
int n_in;

// a blank, a tab, a line feed or a carriage return
int is_space(int byte) {
  return byte == 32 || byte == 9 || byte == 10 || byte == 13;
}

// a word begins where a byte that is no space follows a space or nothing
int begins_word(int i) {
  if (is_space(in[i])) return 0;
  return i == 0 || is_space(in[i - 1]);
}

int main() {
  int lines = 0;
  int words = 0;
  pfor (int i = 0; i < n_in; i++) {
    if (in[i] == 10) lines++;
    if (begins_word(i)) words++;
  }
  print(lines);
  print(words);
  print(n_in);
  return 0;
}
