// > 8
// > 16
// > 17
// > 0
// > 1
// > 0
// > 2
// > 0
// > 3
// > result 0
// The parts in the parentheses of a `for` have a scope of their own, and so has its body; as have
// parameters and a function's block. A variable without an initializer is 0 again each time.
int twice(int n) {
  int n = 4;
  return n + n;
}

int main() {
  mm_put(twice(100));
  for (int n = 7; n < 9; n++) {
    int m = n;
    int n = 9;
    mm_put(m + n);
  }
  for (int i = 0; i < 3; i++) {
    int again;
    mm_put(again);
    again = i + 1;
    mm_put(again);
  }
  return 0;
}
