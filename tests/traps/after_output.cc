// > 1
// > 2
// > trap 2
// What was put before a trap stands.
int main() {
  mm_put(1);
  mm_put(2);
  return 1 / (1 - 1);
}
