// The inner loop of a compressor (Lempel, Ziv and Welch): each turn reads a byte, and looks for the string that is open with that byte
// behind it. Where the table has no such string, the open one's code is written, and the longer one is put into the table. What is open
// and what the table has is what the turn before left: no turn can run ahead of it.
int in[5000];
int n_in;

int key[4096];
int code[4096];
int next_code = 256;

int out[5000];
int n_out;

// where a string stands in the table, or would stand
int place_of(int open, int byte) {
  int wanted = open * 256 + byte + 1;
  int at = (byte * 16 ^ open) & 4095;
  while (key[at] && key[at] != wanted) at = (at + 1) & 4095;
  return at;
}

int main() {
  if (n_in == 0) return 0;
  int open = in[0];
  pfor (int i = 1; i < n_in; i++) {
    int byte = in[i];
    int at = place_of(open, byte);
    if (key[at]) {
      open = code[at];
    } else {
      out[n_out] = open;
      n_out++;
      if (next_code < 2048) {
        key[at] = open * 256 + byte + 1;
        code[at] = next_code;
        next_code++;
      }
      open = byte;
    }
  }
  out[n_out] = open;
  n_out++;

  int check = 0;
  for (int i = 0; i < n_out; i++) check = check * 31 + out[i];
  print(n_in);
  print(n_out);
  print(check);
  return 0;
}
