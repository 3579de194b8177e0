// < 5
// > 5
// > trap 4
int main() {
  mm_put(mm_get());
  mm_put(mm_get());
  return 0;
}
