// > 0
// > 5
// > 55
// > 610
// > 1134903170
// > result 0
// Fibonacci's numbers, by two calls and by a loop.
int slow(int n) { return n < 2 ? n : slow(n - 1) + slow(n - 2); }

int fast(int n) {
  int a = 0;
  int b = 1;
  while (n-- > 0) {
    int next = a + b;
    a = b;
    b = next;
  }
  return a;
}

int main() {
  for (int n = 0; n <= 15; n += 5) mm_put(slow(n));
  mm_put(fast(45));
  return slow(12) - fast(12);
}
