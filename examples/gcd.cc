// printf '252\n105\n' | ./mmc run examples/gcd.cc
// > 21
// > result 0
// The greatest common divisor of the two numbers of the input.
int gcd(int a, int b) {
  while (b != 0) {
    int rest = a % b;
    a = b;
    b = rest;
  }
  return a;
}

int main() {
  int a = mm_get();
  int b = mm_get();
  mm_put(gcd(a, b));
  return 0;
}
