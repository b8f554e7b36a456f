/* The fields of a message of make_rain's by the three libraries, and their values. */
#ifndef BENCH_VALUES_H
#define BENCH_VALUES_H

#include "check.h"
#include "fields.h"
#include "skogmund.h"
#include <eccodes.h>
#include <grib2.h>

struct values {
    int64_t of[SECTIONS][SKOGMUND_VALUES];
};

/* Ours, by a call of skogmund_read; here, so that nothing but that is timed. */
static inline void read_section(struct values *v, int section, const uint8_t *octets, size_t n) {
    static const uint8_t numbers[SECTIONS] = {1, 3, 4, 5, 7};
    check(skogmund_read(numbers[section], octets, n, v->of[section], SKOGMUND_VALUES) == 0, "skogmund_read accepts");
}

/* g2c's: how many fields, by g2_info, and the k-th, from 1, by g2_getfld without unpacking. */
g2int g2c_fields(struct message *m);
gribfield *g2c_field(struct message *m, g2int k);

/* A job about a message: g2_info, and g2_getfld for each field. */
uint64_t by_g2c(void *message);

/* ecCodes', by a key for each value of ours; their sum. */
uint64_t sum_by_keys(codes_handle *h);

/* That ours are as many as there are fields in the templates, and that each of the others gives the same. */
void check_counts(const struct values *ours);
void check_eccodes(codes_handle *h, const struct values *ours);
void check_g2c(const gribfield *theirs, const struct values *ours);

#endif
