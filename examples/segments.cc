// ./mmc run examples/segments.cc
// > 1
// > 0
// > 1
// > 0
// > result 0
// A question of geometry: do two segments have a point in common? All numbers are exact, or the run
// ends by a trap.

// The side of the line from a to b on which c is: -1, 0 or 1.
int side(int ax, int ay, int bx, int by, int cx, int cy) {
  int turn = (bx - ax) * (cy - ay) - (by - ay) * (cx - ax);
  return turn < 0 ? -1 : turn > 0 ? 1 : 0;
}

bool between(int low, int n, int high) {
  return low <= n && n <= high || high <= n && n <= low;
}

// c, which is on the line from a to b, is between them
bool is_on(int ax, int ay, int bx, int by, int cx, int cy) {
  return between(ax, cx, bx) && between(ay, cy, by);
}

bool meet(int ax, int ay, int bx, int by, int cx, int cy, int dx, int dy) {
  int c = side(ax, ay, bx, by, cx, cy);
  int d = side(ax, ay, bx, by, dx, dy);
  int a = side(cx, cy, dx, dy, ax, ay);
  int b = side(cx, cy, dx, dy, bx, by);
  if (c * d < 0 && a * b < 0) return true;
  return c == 0 && is_on(ax, ay, bx, by, cx, cy) || d == 0 && is_on(ax, ay, bx, by, dx, dy) ||
         a == 0 && is_on(cx, cy, dx, dy, ax, ay) || b == 0 && is_on(cx, cy, dx, dy, bx, by);
}

int main() {
  mm_put(meet(0, 0, 10, 10, 0, 10, 10, 0));
  mm_put(meet(0, 0, 10, 10, 1, 0, 11, 9));
  mm_put(meet(0, 0, 10, 0, 5, 0, 5, 7));
  mm_put(meet(0, 0, 4, 0, 5, 0, 9, 0));
  return 0;
}
