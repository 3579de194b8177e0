// ./mmc run examples/primes.cc
// > 2
// > 3
// > 5
// > 7
// > 11
// > 13
// > 17
// > 19
// > 23
// > 29
// > result 10
// The primes below 30, and how many there are.
bool is_prime(int n) {
  for (int d = 2; d * d <= n; d++)
    if (n % d == 0) return false;
  return n > 1;
}

int main() {
  int count = 0;
  for (int n = 0; n < 30; n++)
    if (is_prime(n)) {
      mm_put(n);
      count++;
    }
  return count;
}
