// > 2
// > 1
// > 2
// > 3
// > 2
// > 1
// > 0
// > 23
// > 1
// > 2
// > result 4
// An inner name hides an outer one, to the end of its block.
int x(int n) { return n + 1; }

int main() {
  mm_put(x(1));
  int n = 1;
  {
    mm_put(n);
    int n = 2;
    mm_put(n);
    {
      int n = 3;
      mm_put(n);
    }
    mm_put(n);
  }
  mm_put(n);
  if (n) {
    bool n = false;
    mm_put(n);
  }
  for (int n = 7; n < 8; n++) {
    int m = n;
    {
      int n = m + 9;
      mm_put(m + n);
    }
  }
  while (n < 3) {
    int again = n++;
    mm_put(again);
  }
  return x(n);
}
