// > trap 1
int main() {
  int least = -2147483647 - 1;
  int minus = -1;
  return least / minus;
}
