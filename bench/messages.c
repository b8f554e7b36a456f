/* Cutting whole messages into their fields, and reading these, by the three libraries. */
#include "messages.h"
#include "bench.h"
#include "timing.h"
#include "values.h"
#include <stdio.h>
#include <string.h>

enum { CUTTING, OURS, G2C, HANDLES, ECCODES, READERS };

/* Of the message that was cut last. */
static uint64_t spans[SKOGMUND_SPANS], count;
static struct values values;

uint64_t cut_message(void *message) {
    const struct message *m = message;
    check(skogmund_message(m->octets, m->n, spans, SKOGMUND_SPANS, &count, 1) == 0, "skogmund_message accepts");
    check(count == m->fields, "skogmund_message finds the fields");
    return spans[10 * count - 1];
}

static void read_field(const struct message *m, uint64_t k) {
    for (int i = 0; i < SECTIONS; i++) {
        const uint64_t *span = spans + 10 * k + 2 * i;
        read_section(&values, i, m->octets + (span[0] - 1), span[1]);
    }
}

static uint64_t by_ours(void *message) {
    cut_message(message);
    for (uint64_t k = 0; k < count; k++) read_field(message, k);
    return (uint64_t)values.of[SECTION_7][1];
}

/* What ecCodes has not taken yet of a message in memory. */
struct rest {
    void *octets;
    size_t n;
};

/* A handle for the next field, or NULL where there is none. ecCodes keeps the message itself from the first to the last. */
static codes_handle *next_handle(struct rest *rest) {
    int failed = 0;
    codes_handle *h = codes_grib_handle_new_from_multi_message(NULL, &rest->octets, &rest->n, &failed);
    check(failed == 0, "ecCodes takes the message");
    return h;
}

static struct rest all_of(struct message *m) {
    return (struct rest){m->octets, m->n};
}

static uint64_t by_handles(void *message) {
    struct rest rest = all_of(message);
    uint64_t handles = 0;
    for (codes_handle *h; (h = next_handle(&rest)) != NULL; handles++) codes_handle_delete(h);
    return handles;
}

static uint64_t by_eccodes(void *message) {
    struct rest rest = all_of(message);
    uint64_t sum = 0;
    for (codes_handle *h; (h = next_handle(&rest)) != NULL; codes_handle_delete(h)) sum += sum_by_keys(h);
    return sum;
}

/* The places of ours are those where the sections were put; the others give no places, but the values that stand there. */
static void check_field(struct message *m, uint64_t k, codes_handle *h) {
    gribfield *read = g2c_field(m, (g2int)k + 1);
    read_field(m, k);
    check_counts(&values);
    check(values.of[SECTION_4][13] == 6 * ((int64_t)k + 1), "the fields are in their order");
    check(h != NULL, "ecCodes has a handle for each field");
    check_eccodes(h, &values);
    check_g2c(read, &values);
    g2_free(read);
}

static void check_agreement(struct message *m) {
    struct rest rest = all_of(m);
    memset(spans, 0xA5, sizeof spans);
    cut_message(m);
    check(g2c_fields(m) == (g2int)count, "g2c finds as many fields");
    check(memcmp(spans, m->spans, count * sizeof *m->spans) == 0, "ours finds the sections where they were put");
    for (uint64_t k = 0; k < count; k++) {
        codes_handle *h = next_handle(&rest);
        check_field(m, k, h);
        codes_handle_delete(h);
    }
    check(next_handle(&rest) == NULL, "ecCodes finds no other field");
}

static void print_message(const struct message *m, const struct job *jobs) {
    static const char *const names[READERS] = {"ours: skogmund_message", "ours: skogmund_message, and five calls of skogmund_read for each field",
                                               "g2c: g2_info, and g2_getfld without unpacking for each field", "ecCodes: the handles alone",
                                               "ecCodes: the handles, and a key for each value of ours"};
    for (int r = 0; r < READERS; r++) {
        printf("| %llu | %zu |", (unsigned long long)m->fields, m->n);
        for (int ours = CUTTING; ours <= OURS; ours++) printf(" %.4f |", jobs[ours].nanoseconds / jobs[r].nanoseconds);
        printf(" %s | %.0f |\n", names[r], jobs[r].nanoseconds);
    }
    fflush(stdout);
}

static void bench_message(uint64_t fields) {
    static struct field field;
    static struct message message;
    struct job jobs[READERS] = {{cut_message, &message, 0}, {by_ours, &message, 0}, {by_g2c, &message, 0}, {by_handles, &message, 0},
                                {by_eccodes, &message, 0}};
    make_rain(&field, 50, 40, 12);
    make_message(&message, &field, fields);
    check_agreement(&message);
    time_jobs(jobs, READERS);
    print_message(&message, jobs);
}

void bench_messages(void) {
    printf("## Whole messages\n\n");
    printf("Rain accumulated over six hours (4.8) on a grid 3.0, one field and %d, resumed at section 4. Nanoseconds a message.\n\n", MOST_FIELDS);
    printf("| fields | octets | cutting / this | cutting and reading / this | what | ns |\n|---:|---:|---:|---:|---|---:|\n");
    codes_grib_multi_support_on(NULL);
    bench_message(1);
    bench_message(MOST_FIELDS);
    codes_grib_multi_support_off(NULL);
    printf("\n");
}
