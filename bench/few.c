/* Unpacking fewer than eight values, for which ours has no groups, by ours and by gbits. */
#include "bench.h"
#include "check.h"
#include "fields.h"
#include "limits.h"
#include "packed.h"
#include "timing.h"
#include "unpacking.h"
#include <stdio.h>
#include <string.h>

/* A call takes a few nanoseconds, so a job is many: what is around them then counts for little, and for both alike. */
enum { EIGHT = 8, CALLS = 64 };
enum { OURS, GBITS, DECODERS };

/* What unpack's time may be of gbits'. */
static const double of_gbits = 1;

/* Both are called by a pointer that is read anew each time: no call can be left out, and neither has the stub before it by which a function of a
   shared library is called otherwise. */
static void (*volatile ours)(const uint8_t *packed, size_t n, uint32_t bits, uint32_t *row, size_t places) = unpack;
static void (*volatile theirs)(unsigned char *octets, g2int *numbers, g2int first_bit, g2int bits, g2int skip, g2int count) = gbits;

static struct field field;
static struct {
    uint32_t ours[EIGHT];
    g2int gbits[EIGHT];
} rows;

/* So many values of so many bits, and the octets that they take. */
struct few {
    uint8_t bits;
    size_t values;
    size_t octets;
};

/* What is passed is copied first: a call might change it where it lies, and it would be read again for each. */
static uint64_t by_ours(void *about) {
    const struct few few = *(const struct few *)about;
    for (int i = 0; i < CALLS; i++) ours(field.sections[SECTION_7].octets + 5, few.octets, few.bits, rows.ours, few.values);
    return rows.ours[0];
}

static uint64_t by_gbits(void *about) {
    const struct few few = *(const struct few *)about;
    for (int i = 0; i < CALLS; i++) theirs(field.sections[SECTION_7].octets + 5, rows.gbits, 0, few.bits, 0, (g2int)few.values);
    return (uint64_t)rows.gbits[0];
}

/* The rows are spoilt first: places that nobody writes differ, since a g2int has 64 bits. */
static void check_agreement(struct few *few) {
    memset(&rows, 0xA5, sizeof rows);
    by_ours(few);
    by_gbits(few);
    for (size_t i = 0; i < few->values; i++) check(rows.gbits[i] == rows.ours[i], "gbits gives the same few numbers");
}

static void print_width(uint8_t bits, struct job jobs[EIGHT][DECODERS]) {
    double ratios[EIGHT], worst = 0;
    for (size_t n = 0; n < EIGHT; n++) {
        ratios[n] = jobs[n][OURS].nanoseconds / jobs[n][GBITS].nanoseconds;
        if (ratios[n] > worst) worst = ratios[n];
        note_ratio((struct ratio){"unpack / gbits", n, bits, ratios[n], of_gbits});
    }
    printf("| %d | %.2f |", bits, worst);
    for (size_t n = 0; n < EIGHT; n++) {
        printf(" %.2f (%.1f / %.1f) |", ratios[n], jobs[n][OURS].nanoseconds / CALLS, jobs[n][GBITS].nanoseconds / CALLS);
    }
    printf("\n");
    fflush(stdout);
}

static void bench_width(uint8_t bits) {
    struct few few[EIGHT];
    struct job jobs[EIGHT][DECODERS];
    make_rain(&field, EIGHT - 1, 1, bits);
    for (size_t n = 0; n < EIGHT; n++) {
        few[n] = (struct few){bits, n, (n * bits + 7) / 8};
        check_agreement(&few[n]);
        jobs[n][OURS] = (struct job){by_ours, &few[n], 0};
        jobs[n][GBITS] = (struct job){by_gbits, &few[n], 0};
    }
    time_short_jobs(jobs[0], EIGHT * DECODERS);
    print_width(bits, jobs);
}

void bench_few(void) {
    printf("## Fewer than eight values\n\n");
    printf("unpack / gbits for N values, and in brackets the nanoseconds a call of each; rounds are a tenth as long as for the others. ");
    printf("unpack may take %.2f of gbits' time.\n\n", of_gbits);
    printf("| bits | worst | N = 0 | 1 | 2 | 3 | 4 | 5 | 6 | 7 |\n|---:|---:|---:|---:|---:|---:|---:|---:|---:|---:|\n");
    for (size_t i = 0; i < WIDTHS; i++) bench_width(widths[i]);
    printf("\n");
}
