// > 0
// > 1
// > 2
// > 100
// > 0
// > 0
// > 1
// > 6
// > 10
// > 9
// > 8
// > result 6
// A `for` with and without each of its parts; its variable is its own.
int main() {
  int i = 100;
  for (int i = 0; i < 3; i++) mm_put(i);
  mm_put(i);
  for (i = 3; i; i--);
  mm_put(i);
  for (; i < 2; ++i) mm_put(i);
  for (;;) {
    if (i++ > 4) break;
  }
  mm_put(i);
  for (int i = 1, j = 10; i < j; i *= 2) {
    mm_put(j);
    j--;
  }
  return i;
}
