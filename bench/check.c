#include "check.h"
#include <stdio.h>
#include <stdlib.h>

void check(int holds, const char *what) {
    if (holds) return;
    fprintf(stderr, "bench: this does not hold: %s\n", what);
    exit(1);
}
