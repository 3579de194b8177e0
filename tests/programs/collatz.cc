// > 231
// > 128
// > result 0
// The number below a bound whose chain by Collatz's rule is the longest.
int length(unsigned n) {
  int steps = 1;
  while (n != 1u) {
    n = n % 2u ? 3u * n + 1u : n / 2u;
    steps++;
  }
  return steps;
}

int main() {
  int best = 1;
  for (int n = 1; n < 300; n++)
    if (length(n) > length(best)) best = n;
  mm_put(best);
  mm_put(length(best));
  return 0;
}
