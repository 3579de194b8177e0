// ./mmc run examples/headers.cc
// > 6
// > 42
// > result 0
// The statements of `main` stand in a header, whose name is taken from the folder in which one runs.
int main() {
#include "examples/statements.h"
  return 0;
}
