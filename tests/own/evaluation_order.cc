// > 1
// > 2
// > 3
// > 123
// > 4
// > 5
// > 6
// > 9
// > 10
// > 1
// > 0
// > 12
// > 12
// > 13
// > 14
// > result 0
// What is evaluated, in which order, is seen by what is put.
int show(int n) {
  mm_put(n);
  return n;
}

int three(int a, int b, int c) { return a * 100 + b * 10 + c; }

int main() {
  mm_put(three(show(1), show(2), show(3)));
  show(4) + show(5) * show(6);
  false && show(7);
  true || show(8);
  true && show(9);
  mm_put(false || show(10) == 10);
  mm_put(show(0) ? show(11) : show(12));
  int x = 1;
  x = show(13) + x;
  mm_put(x);
  return 0;
}
