// > 1
// > 1
// > 2
// > 3
// > 3
// > 2
// > 20
// > 30
// > 20
// > 1
// > -1
// > result 0
// Overloads on the three kinds of numbers, and on how many there are.
int kind(bool b) { return 1; }
int kind(int n) { return 2; }
int kind(unsigned u) { return 3; }
int kind(int a, int b) { return 20; }
int kind(unsigned a, unsigned b) { return 30; }
int narrow(int n) { return n; }
int narrow(unsigned n) { return 0 - 1; }

int main() {
  mm_put(kind(true));
  mm_put(kind(0 < 1));
  mm_put(kind(7));
  mm_put(kind(7u));
  mm_put(kind(1 + 1u));
  mm_put(kind(true + true));
  mm_put(kind(1, 2));
  mm_put(kind(1u, 2u));
  mm_put(kind(true, false));
  mm_put(narrow(true));
  mm_put(narrow(5u));
  return 0;
}
