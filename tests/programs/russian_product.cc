// > -83810205
// > 2147395600
// > result 0
// Products by doubling and halving, of any signs.
int product(int a, int b) {
  if (b < 0) return -product(a, -b);
  int sum = 0;
  while (b) {
    if (b % 2) sum += a;
    b /= 2;
    if (b) a += a;
  }
  return sum;
}

int main() {
  for (int a = -30; a <= 30; a += 7)
    for (int b = -30; b <= 30; b += 7)
      if (product(a, b) != a * b) return 1;
  mm_put(product(12345, -6789));
  mm_put(+product(-46340, -46340));
  return 0;
}
