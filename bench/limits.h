/* What ratios of our times to another's may be. */
#ifndef BENCH_LIMITS_H
#define BENCH_LIMITS_H

#include <stddef.h>

/* A ratio that was measured: whose times they are, for how many values of how many bits, and what it may be. */
struct ratio {
    const char *of;
    size_t values;
    unsigned bits;
    double is;
    double may_be;
};

void note_ratio(struct ratio ratio);

/* Whether each ratio that was noted is within its limit, or above it by no more than half, which is left to what else the machine does. Says on
   standard error which are not, and on standard output if all are. */
int all_within_limits(void);

#endif
