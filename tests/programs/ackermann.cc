// > 7
// > 11
// > 21
// > result 61
// Ackermann's function, whose depth of calls grows fast.
int ackermann(int m, int n) {
  if (m == 0) return n + 1;
  if (n == 0) return ackermann(m - 1, 1);
  return ackermann(m - 1, ackermann(m, n - 1));
}

int main() {
  mm_put(ackermann(1, 5));
  mm_put(ackermann(2, 4));
  mm_put(ackermann(2, 9));
  return ackermann(3, 3);
}
