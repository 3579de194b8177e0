// > 12
// > 1
// > 2
// > 7
// > 14
// > 21
// > result 21
// Where `break` and `continue` go in each kind of loop.
int main() {
  int turns = 0;
  for (int i = 0; i < 10; i++) {
    if (i % 2) continue;
    if (i == 8) break;
    turns += i;
  }
  mm_put(turns);
  int n = 0;
  do {
    n++;
    if (n == 3) continue;
    if (n > 5) break;
    mm_put(n);
  } while (n != 3);
  while (true) {
    for (;;) {
      n++;
      if (n % 7 == 0) break;
    }
    mm_put(n);
    if (n > 20) break;
  }
  return n;
}
