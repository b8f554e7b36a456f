/* Reading the five sections of one field by the three libraries. */
#include "bench.h"
#include "timing.h"
#include "values.h"
#include <stdio.h>

enum { OURS, G2C, HANDLE, ECCODES, READERS };

static struct field field;
static struct message message;
static struct values values;

static uint64_t by_ours(void *about) {
    (void)about;
    for (int i = 0; i < SECTIONS; i++) read_section(&values, i, field.sections[i].octets, field.sections[i].n);
    return (uint64_t)values.of[SECTION_7][1];
}

static codes_handle *handle(void) {
    codes_handle *h = codes_handle_new_from_message(NULL, message.octets, message.n);
    check(h != NULL, "ecCodes takes the message");
    return h;
}

static uint64_t by_handle(void *about) {
    (void)about;
    return (uint64_t)codes_handle_delete(handle());
}

static uint64_t by_eccodes(void *about) {
    codes_handle *h = handle();
    uint64_t sum = sum_by_keys(h);
    (void)about;
    codes_handle_delete(h);
    return sum;
}

static void check_agreement(void) {
    codes_handle *h = handle();
    gribfield *read = g2c_field(&message, 1);
    by_ours(NULL);
    check_counts(&values);
    check_eccodes(h, &values);
    check_g2c(read, &values);
    codes_handle_delete(h);
    g2_free(read);
}

static void print_reading(const struct job *jobs) {
    static const char *const names[READERS] = {"ours: five calls of skogmund_read", "g2c: g2_info, and g2_getfld without unpacking",
                                               "ecCodes: the handle alone", "ecCodes: the handle, and a key for each value of ours"};
    printf("## Reading the five sections of a field\n\n");
    printf("Rain accumulated over six hours (4.8) on a grid 3.0. Nanoseconds a field.\n\n");
    printf("| ours / this | what | ns |\n|---:|---|---:|\n");
    for (int r = 0; r < READERS; r++) {
        printf("| %.4f | %s | %.0f |\n", jobs[OURS].nanoseconds / jobs[r].nanoseconds, names[r], jobs[r].nanoseconds);
    }
    printf("\n");
    fflush(stdout);
}

void bench_reading(void) {
    struct job jobs[READERS] = {{by_ours, NULL, 0}, {by_g2c, &message, 0}, {by_handle, NULL, 0}, {by_eccodes, NULL, 0}};
    make_rain(&field, 50, 40, 12);
    make_message(&message, &field, 1);
    check_agreement();
    time_jobs(jobs, READERS);
    print_reading(jobs);
}
