// ./mmc run examples/collisions.cc
// > 33
// > 36
// > 122
// > result 0
// A simulation without objects: two balls of one mass between two walls. Where they meet, each takes
// the other's speed, which looks as if they went through each other. It puts how often they met, and
// where they are after 1,000 ticks.
int turned(int speed, int place) {
  if (place <= 0) return speed < 0 ? -speed : speed;
  if (place >= 200) return speed < 0 ? speed : -speed;
  return speed;
}

int main() {
  int left = 10, right = 150, left_speed = 7, right_speed = -3, met = 0;
  for (int tick = 0; tick < 1000; tick++) {
    left += left_speed;
    right += right_speed;
    if (left >= right) {
      int place = left, speed = left_speed;
      left = right;
      left_speed = right_speed;
      right = place;
      right_speed = speed;
      met++;
    }
    left_speed = turned(left_speed, left);
    right_speed = turned(right_speed, right);
  }
  mm_put(met);
  mm_put(left);
  mm_put(right);
  return 0;
}
