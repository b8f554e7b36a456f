/* Making fields: the octets of their five sections, and a whole message around them. */
#ifndef BENCH_FIELDS_H
#define BENCH_FIELDS_H

#include <stddef.h>
#include <stdint.h>

enum { MOST_OCTETS = 65536, MOST_FIELDS = 16 };
enum { SECTION_1, SECTION_3, SECTION_4, SECTION_5, SECTION_7, SECTIONS };

struct section {
    uint8_t octets[MOST_OCTETS];
    size_t n;
};

struct field {
    struct section sections[SECTIONS];
};

/* Fields with sections 0, 6 and 8 about them, which the other two libraries ask for. */
struct message {
    uint8_t octets[5 * MOST_OCTETS];
    size_t n;
    size_t values_at; /* where the packed values of the last field stand, from 0 */
    uint64_t fields;
    uint64_t spans[MOST_FIELDS][SECTIONS][2]; /* of each section of each field the first octet, from 1, and the length */
};

/* Writes a number at an octet of a section, counted from 1 as in document 01. */
void put(struct section *s, size_t octet, size_t width, uint64_t number);

/* Rain accumulated over six hours (4.8) on a grid 3.0 of ni x nj points, its values packed in `bits` bits each. R, E and D are 0, so that
   the packed whole numbers are the values themselves. */
void make_rain(struct field *f, uint32_t ni, uint32_t nj, uint8_t bits);

/* A field with no more octets than it needs: 4.0 on four points, eight bits each. */
void make_small(struct field *f);

/* Section 3 with a list of `count` rows, two octets for each. */
void make_listed_grid(struct section *s, uint32_t count);

/* The field once, and then again, resumed at section 4, until there are so many; the forecast time of each is six hours after the one before,
   and the field is left with the last. */
void make_message(struct message *m, struct field *f, uint64_t fields);

#endif
