// > 5
// > 6
// > 7
// > 7
// > 5
// > 40
// > 1
// > 1
// > 0
// > 40
// > 0
// > 1
// > 0
// > result 0
// `++` and `--` before and behind, and the values that they have.
int main() {
  int n = 5;
  mm_put(n++);
  mm_put(n);
  mm_put(++n);
  mm_put(n--);
  mm_put(--n);
  n = 40;
  mm_put(n);
  unsigned u = 0u;
  mm_put(u-- == 0u);
  mm_put(u == 4294967295u);
  mm_put(++u);
  mm_put(-n + +n - -n);
  mm_put(!n);
  mm_put(!!n);
  mm_put(-u);
  return 0;
}
