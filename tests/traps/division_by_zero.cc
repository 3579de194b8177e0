// > trap 2
int main() {
  int zero = 0;
  return 5 / zero;
}
