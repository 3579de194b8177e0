// > 24
// > 5201
// > 1
// > result 0
// Powers modulo a prime by squaring; Fermat's theorem at some numbers.
unsigned power(unsigned base, unsigned exponent, unsigned modulus) {
  unsigned result = 1u;
  base %= modulus;
  while (exponent > 0u) {
    if (exponent % 2u == 1u) result = result * base % modulus;
    base = base * base % modulus;
    exponent /= 2u;
  }
  return result;
}

int main() {
  mm_put(power(2u, 10u, 1000u));
  mm_put(power(3u, 200u, 50021u));
  bool holds = true;
  for (unsigned a = 1u; a < 50u; a++) holds = holds && power(a, 65520u, 65521u) == 1u;
  mm_put(holds);
  return 0;
}
