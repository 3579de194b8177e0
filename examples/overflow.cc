// examples/run examples/overflow.cc
// > 2147483647
// > trap 1
// The second sum is no `int`: the C text tests that before it adds, and traps. This one is run as a
// program that a C compiler makes of the text.
int main() {
  mm_put(2147483646 + 1);
  mm_put(2147483647 + 1);
  return 0;
}
