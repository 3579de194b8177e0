// > 13
// > 12
// > 32
// > 13
// > 21
// > 23
// > 13
// > 7
// > 1023
// > result 0
// The moves of the towers of Hanoi: each is 10 times the peg that it leaves, and the peg it goes to.
int hanoi(int disks, int from, int to, bool show) {
  if (disks == 0) return 0;
  int other = 6 - from - to;
  int before = hanoi(disks - 1, from, other, show);
  if (show) mm_put(10 * from + to);
  return before + 1 + hanoi(disks - 1, other, to, show);
}

int main() {
  mm_put(hanoi(3, 1, 3, true));
  mm_put(hanoi(10, 1, 2, false));
  return 0;
}
