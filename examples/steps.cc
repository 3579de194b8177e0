// ./mmc run --steps 5 examples/steps.cc
// > 1
// > 2
// > 3
// > 4
// > steps spent
// A run may be bounded: entering `main` is a step, and so is each turn of a loop.
int main() {
  for (int n = 1;; n++) mm_put(n);
}
