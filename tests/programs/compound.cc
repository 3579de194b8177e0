// > 22
// > -8
// > 56
// > 11
// > 3
// > 2147483647
// > 5
// > 1
// > result 0
// Each compound assignment, on each kind of number, and the value that it has.
int main() {
  int a = 17;
  mm_put(a += 5);
  mm_put(a -= 30);
  mm_put(a *= -7);
  mm_put(a /= 5);
  mm_put(a %= 4);
  unsigned u = 3u;
  u -= 5;
  mm_put(u / 2u);
  u += 7u;
  mm_put(u);
  u *= 4294967295u;
  mm_put(u == 0u - 5u);
  return 0;
}
