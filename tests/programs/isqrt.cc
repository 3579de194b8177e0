// > 44721
// > 65535
// > result 0
// Whole square roots, by Newton's steps and by halving an interval.
int newton(int n) {
  if (n < 2) return n;
  int x = n;
  int next = (x + n / x) / 2;
  while (next < x) {
    x = next;
    next = (x + n / x) / 2;
  }
  return x;
}

int halving(unsigned n) {
  unsigned low = 0u, high = 65536u;
  while (high - low > 1u) {
    unsigned middle = (low + high) / 2u;
    if (middle * middle <= n) low = middle; else high = middle;
  }
  return low;
}

int main() {
  for (int n = 0; n < 2000; n++)
    if (newton(n) != halving(n)) return 1;
  mm_put(newton(2000000000));
  mm_put(halving(4294967295u));
  return 0;
}
