// > 86
// > 99
// > 600
// > result 0
// Pseudo-random numbers by a linear congruence modulo 2^32, thrown into six boxes.
unsigned next(unsigned seed) { return seed * 1664525u + 1013904223u; }

int main() {
  unsigned seed = 42u;
  int one = 0, six = 0, other = 0;
  for (int i = 0; i < 600; i++) {
    seed = next(seed);
    unsigned throw_ = seed / 65536u % 6u + 1u;
    if (throw_ == 1u) ++one;
    else if (throw_ == 6u) ++six;
    else ++other;
  }
  mm_put(one);
  mm_put(six);
  mm_put(one + six + other);
  return 0;
}
