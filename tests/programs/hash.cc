// < 104
// < 101
// < 108
// < 108
// < 111
// > 26842
// > 53161
// > result 0
// A hash of the numbers of the input, modulo 2^32, as FNV makes it but with sums for its bits.
int main() {
  unsigned hash = 2166136261u;
  while (mm_more()) {
    hash += mm_get();
    hash *= 16777619u;
  }
  mm_put(hash / 65536u);
  mm_put(hash % 65536u);
  return 0;
}
