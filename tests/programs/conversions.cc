// > 1
// > -1
// > 1
// > 5
// > 1
// > 0
// > 0
// > 1
// > 2
// > 1
// > -1294967296
// > 1
// > result 3
// Conversions between `bool`, `int` and `unsigned`, where they stand unseen.
int as_int(int n) { return n; }
unsigned as_unsigned(unsigned n) { return n; }
bool as_bool(bool b) { return b; }

int main() {
  mm_put(as_int(true));
  mm_put(as_int(4294967295u));
  mm_put(as_unsigned(-1) == 4294967295u);
  mm_put(as_unsigned(-1) % 10u);
  mm_put(as_bool(7));
  mm_put(as_bool(0u));
  mm_put(-1 < 1u);
  mm_put(-1 < 1);
  mm_put(true + true);
  mm_put(2147483647 + 1u == 2147483648u);
  int n = 3000000000u;
  mm_put(n);
  bool b = n;
  mm_put(b);
  return b ? 3u : 4;
}
