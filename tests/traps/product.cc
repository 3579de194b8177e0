// > 2147441938
// > trap 1
int main() {
  int n = 46339;
  mm_put(n * 46342);
  mm_put((n + 2) * 46342);
  return 0;
}
