// > 0
// > 29
// > result 0
// Inverses modulo a prime, by the extended algorithm of Euclid in one recursion.
int inverse(int a, int m, int x, int y) {
  if (a == 1) return x;
  return inverse(m % a, a, y - m / a * x, x);
}

int positive(int a, int m) { return (a % m + m) % m; }

int main() {
  int wrong = 0;
  for (int a = 1; a < 101; a++) {
    int other = positive(inverse(a, 101, 1, 0), 101);
    if (a * other % 101 != 1) wrong++;
  }
  mm_put(wrong);
  mm_put(positive(inverse(7, 101, 1, 0), 101));
  return 0;
}
