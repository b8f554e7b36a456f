#include "limits.h"
#include "check.h"
#include <stdio.h>

enum { MOST_RATIOS = 128 };

static const double allowance = 1.5;

static struct ratio noted[MOST_RATIOS];
static size_t count;

void note_ratio(struct ratio ratio) {
    check(count < MOST_RATIOS, "there is room for the ratios");
    noted[count++] = ratio;
}

static int is_within(const struct ratio *r) {
    if (r->is <= allowance * r->may_be) return 1;
    fprintf(stderr, "bench: %s is %.2f with N = %zu and width %u; it may be %.2f, and a check fails above %.2f\n", r->of, r->is, r->values, r->bits,
            r->may_be, allowance * r->may_be);
    return 0;
}

int all_within_limits(void) {
    size_t within = 0;
    check(count > 0, "there are ratios to look at");
    for (size_t i = 0; i < count; i++) within += (size_t)is_within(&noted[i]);
    if (within == count) printf("All %zu ratios are within their limits, or above them by no more than half.\n", count);
    return within == count;
}
