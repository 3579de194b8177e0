#pragma once
/* A sum groups from the left; parentheses may stand around it. */
mm_put(1 + 2 + 3);
mm_put((40) + 2);
