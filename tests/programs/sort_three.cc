// < 3
// < 1
// < 2
// < -5
// < 9
// < -7
// > 1
// > 2
// > 3
// > -7
// > -5
// > 9
// > result 0
// Three numbers of the input in order, again and again, by exchanges.
int least(int a, int b) { return a < b ? a : b; }
int greatest(int a, int b) { return a < b ? b : a; }

int main() {
  while (mm_more()) {
    int a = mm_get();
    int b = mm_get();
    int c = mm_get();
    int low = least(a, least(b, c));
    int high = greatest(a, greatest(b, c));
    mm_put(low);
    mm_put(a + b + c - low - high);
    mm_put(high);
  }
  return 0;
}
