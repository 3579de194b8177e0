// > 2
// > 3
// > 5
// > 7
// > 11
// > 13
// > 17
// > 19
// > 23
// > 29
// > 31
// > 37
// > 41
// > 43
// > 47
// > 303
// > result 0
// The primes below 50, and how many there are below 2,000.
bool is_prime(int n) {
  if (n < 2) return false;
  for (int d = 2; d * d <= n; d++)
    if (n % d == 0) return false;
  return true;
}

int main() {
  int count = 0;
  for (int n = 0; n < 2000; n++)
    if (is_prime(n)) {
      if (n < 50) mm_put(n);
      count++;
    }
  mm_put(count);
  return 0;
}
