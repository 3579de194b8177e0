// > -1
// > 0
// > 1
// > 3
// > 3
// > 3
// > 1
// > 2
// > result 0
// `?:` groups from the right, and both branches come to one type.
int sign(int n) { return n < 0 ? -1 : n == 0 ? 0 : 1; }
int largest(int a, int b, int c) { return a > b ? a > c ? a : c : b > c ? b : c; }

int main() {
  for (int n = -2; n <= 2; n += 2) mm_put(sign(n));
  mm_put(largest(1, 2, 3));
  mm_put(largest(3, 1, 2));
  mm_put(largest(2, 3, 1));
  mm_put((true ? -1 : 1u) == 4294967295u);
  mm_put(false ? true : 2);
  return 0;
}
