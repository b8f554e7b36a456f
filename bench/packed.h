/* What the parts about unpacking share. */
#ifndef BENCH_PACKED_H
#define BENCH_PACKED_H

#include <grib2.h>
#include <stdint.h>

/* The widths that are timed, in bits. */
enum { WIDTHS = 10 };
extern const uint8_t widths[WIDTHS];

/* g2c has these two without declaring them in its header. */
void gbits(unsigned char *octets, g2int *numbers, g2int first_bit, g2int bits, g2int skip, g2int count);
g2int simunpack(unsigned char *octets, g2int *template, g2int count, float *values);

#endif
