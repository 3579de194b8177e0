// > trap 1
int main() {
  int n = 2147483647;
  n += 1;
  return n;
}
