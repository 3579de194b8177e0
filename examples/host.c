/* What a C text of mmc asks of its host: numbers out, numbers in, an end by a trap, and memory. */
#include <stdio.h>
#include <stdlib.h>

extern void mm_put(int number) { printf("%d\n", number); }

static int next, is_read;

extern int mm_more(void) {
  if (!is_read) is_read = scanf("%d", &next) == 1;
  return is_read;
}

extern void mm_trap(int code) {
  fflush(stdout);
  fprintf(stderr, "trap %d\n", code);
  exit(100 + code);
}

extern int mm_get(void) {
  if (!mm_more()) mm_trap(4);
  is_read = 0;
  return next;
}

extern char *mm_new(unsigned size) { return calloc(size, 1); }
