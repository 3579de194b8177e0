// > 1
// > 2
// > trap 5
bool known(int n) {
  if (n == 1) return true;
  if (n == 2) return 7;
}

int main() {
  if (known(1)) mm_put(1);
  if (known(2)) mm_put(2);
  return known(3);
}
