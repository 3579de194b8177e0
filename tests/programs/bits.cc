// > 0
// > 8
// > 32
// > 1
// > 123456789
// > 1610612736
// > result 0
// Bits of unsigned numbers, without operators on bits.
int count(unsigned n) {
  int bits = 0;
  while (n) {
    bits += n % 2u;
    n /= 2u;
  }
  return bits;
}

unsigned reversed(unsigned n) {
  unsigned result = 0u;
  for (int i = 0; i < 32; i++) {
    result = result * 2u + n % 2u;
    n = n / 2u;
  }
  return result;
}

int main() {
  mm_put(count(0u));
  mm_put(count(255u));
  mm_put(count(4294967295u));
  mm_put(reversed(1u) == 2147483648u);
  mm_put(reversed(reversed(123456789u)));
  mm_put(reversed(6u));
  return 0;
}
