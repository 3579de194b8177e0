// > 21
// > 1
// > 21
// > 250
// > result 0
// The greatest common divisor, by remainders and by differences.
int gcd(int a, int b) {
  while (b != 0) {
    int rest = a % b;
    a = b;
    b = rest;
  }
  return a;
}

unsigned gcd(unsigned a, unsigned b) {
  if (a == b) return a;
  return a < b ? gcd(a, b - a) : gcd(a - b, b);
}

int main() {
  mm_put(gcd(252, 105));
  mm_put(gcd(17, 5));
  mm_put(gcd(252u, 105u));
  mm_put(gcd(1000000, 750));
  return 0;
}
