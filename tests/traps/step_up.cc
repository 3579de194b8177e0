// > 2147483647
// > trap 1
int main() {
  int n = 2147483646;
  n++;
  mm_put(n);
  mm_put(++n);
  return 0;
}
