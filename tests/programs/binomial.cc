// > 1
// > 2
// > 4
// > 8
// > 16
// > 32
// > 64
// > 184756
// > result 0
// Rows of Pascal's triangle, by recursion and by a product.
int by_recursion(int n, int k) {
  return k == 0 || k == n ? 1 : by_recursion(n - 1, k - 1) + by_recursion(n - 1, k);
}

int by_product(int n, int k) {
  int value = 1;
  for (int i = 1; i <= k; ++i) value = value * (n - i + 1) / i;
  return value;
}

int main() {
  for (int n = 0; n < 7; n++) {
    int sum = 0;
    for (int k = 0; k <= n; k++) {
      if (by_recursion(n, k) != by_product(n, k)) return 1;
      sum += by_product(n, k);
    }
    mm_put(sum);
  }
  mm_put(by_product(20, 10));
  return 0;
}
