// > 6
// > 28
// > 496
// > 284
// > 220
// > result 0
// Perfect numbers, and a pair of which each is the sum of the other's divisors.
int divisors(int n) {
  int sum = 1;
  for (int d = 2; d * d <= n; d++)
    if (n % d == 0) {
      sum += d;
      if (d * d != n) sum += n / d;
    }
  return sum;
}

int main() {
  for (int n = 2; n < 600; n++)
    if (divisors(n) == n) mm_put(n);
  mm_put(divisors(220));
  mm_put(divisors(284));
  return 0;
}
