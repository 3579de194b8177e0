// > 45
// > 7654321
// > 99
// > 112345569
// > 25
// > result 0
// Sums of digits, numbers that read the same from both ends, and digits sorted by insertion.
int sum(int n) { return n < 10 ? n : n % 10 + sum(n / 10); }

int reversed(int n) {
  int result = 0;
  for (; n; n /= 10) result = result * 10 + n % 10;
  return result;
}

int insert(int sorted, int digit) {
  if (sorted % 10 <= digit || sorted == 0) return sorted * 10 + digit;
  return insert(sorted / 10, digit) * 10 + sorted % 10;
}

int sorted(int n) { return n == 0 ? 0 : insert(sorted(n / 10), n % 10); }

int main() {
  mm_put(sum(987654321));
  mm_put(reversed(1234567));
  int found = 0;
  for (int n = 10; n < 1000; n++) found += n == reversed(n);
  mm_put(found);
  mm_put(sorted(314159265));
  mm_put(sorted(52));
  return 0;
}
