// > trap 2
int main() {
  unsigned zero = 0u;
  return 5u % zero;
}
