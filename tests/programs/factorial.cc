// > 1
// > 120
// > 479001600
// > 966026752
// > 192834546
// > 0
// > result 0
// Factorials that an `int` holds, and those of `unsigned`, modulo 2^32.
int factorial(int n) { return n == 0 ? 1 : n * factorial(n - 1); }
unsigned wrapped(unsigned n) { return n == 0u ? 1u : n * wrapped(n - 1u); }

int main() {
  mm_put(factorial(0));
  mm_put(factorial(5));
  mm_put(factorial(12));
  mm_put(wrapped(13u) / 2u);
  mm_put(wrapped(20u) % 1000000007u);
  mm_put(wrapped(34u));
  return 0;
}
