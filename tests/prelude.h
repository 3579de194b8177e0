// What a program of the language asks of the world, for a C++ compiler: put before the program's text, it
// tells the run as `mmc run` does. It judges the programs of tests/ from outside.
#include <cstdio>
static void mm_put(int n) { std::printf("%d\n", n); }
static int mm_next, mm_has = -1;
static int mm_more() {
  if (mm_has < 0) mm_has = std::scanf("%d", &mm_next) == 1;
  return mm_has;
}
static int mm_get() { mm_more(); mm_has = -1; return mm_next; }
static int program();
int main() { std::printf("result %d\n", program()); }
#define main program
