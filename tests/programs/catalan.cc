// > 1
// > 1
// > 2
// > 5
// > 14
// > 42
// > 132
// > 429
// > 1430
// > result 0
// Catalan's numbers, by their sum.
int catalan(int n) {
  if (n == 0) return 1;
  int sum = 0;
  for (int i = 0; i < n; ++i) sum += catalan(i) * catalan(n - 1 - i);
  return sum;
}

int main() {
  for (int n = 0; n < 9; n++) mm_put(catalan(n));
  return 0;
}
