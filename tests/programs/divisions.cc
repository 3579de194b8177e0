// > 3
// > -1
// > -3
// > -1
// > -3
// > 1
// > 3
// > 1
// > -1073741824
// > -8
// > 429496729
// > 5
// > result 0
// Division goes to zero, and a remainder has the sign of what is divided.
int main() {
  for (int a = -7; a <= 7; a += 14)
    for (int b = -2; b <= 2; b += 4) {
      mm_put(a / b);
      mm_put(a % b);
    }
  mm_put((0 - 2147483647 - 1) / 2);
  mm_put((0 - 2147483647 - 1) % 10);
  mm_put(4294967295u / 10u);
  mm_put(4294967295u % 10u);
  return 0;
}
