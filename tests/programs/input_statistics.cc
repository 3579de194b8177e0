// < 3
// < -14
// < 15
// < 92
// < -65
// > 5
// > 31
// > -65
// > 92
// > result 0
// The count, sum, least and greatest of the numbers of the input.
int main() {
  int count = 0, sum = 0, least = 2147483647, greatest = -2147483647 - 1;
  while (mm_more()) {
    int n = mm_get();
    count++;
    sum += n;
    if (n < least) least = n;
    if (greatest < n) greatest = n;
  }
  mm_put(count);
  mm_put(sum);
  mm_put(least);
  mm_put(greatest);
  return 0;
}
