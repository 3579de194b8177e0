// > 10
// > 4
// > 11
// > result 0
// A compound assignment reads its old value before its right side runs, and an assignment its place.
int main() {
  int a = 2;
  a *= a += 3;
  mm_put(a);
  int b = 1;
  b += b++ + b;
  mm_put(b);
  int c = 5;
  c = c++ + c;
  mm_put(c);
  return 0;
}
