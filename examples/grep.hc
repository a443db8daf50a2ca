// The lines of the input that a pattern stands in, where a dot stands for any byte but a line feed. The input is a text, given as the
// numbers of its bytes (words.hc says how to make one). Each turn searches a line.
int in[20000];
int n_in;

// "on." and a 0 behind it
int pattern[4] = {111, 110, 46, 0};

int lines;
int start[2000];
int stop[2000];
int hit[2000];

void find_lines() {
  int at = 0;
  while (at < n_in && lines < 2000) {
    start[lines] = at;
    while (at < n_in && in[at] != 10) at++;
    stop[lines] = at;
    lines++;
    at++;
  }
}

// whether the pattern stands from this place on, in a line that ends there
int stands(int at, int end) {
  for (int k = 0; pattern[k]; k++) {
    if (at + k >= end) return 0;
    if (pattern[k] != 46 && pattern[k] != in[at + k]) return 0;
  }
  return 1;
}

int main() {
  find_lines();
  pfor (int l = 0; l < lines; l++) {
    int end = stop[l];
    for (int at = start[l]; at < end && !hit[l]; at++) {
      if (stands(at, end)) hit[l] = 1;
    }
  }

  int hits = 0;
  for (int l = 0; l < lines; l++) {
    if (hit[l]) {
      for (int at = start[l]; at < stop[l]; at++) emit(in[at]);
      emit(10);
      hits++;
    }
  }
  print(hits);
  return 0;
}
