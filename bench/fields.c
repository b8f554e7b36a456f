#include "fields.h"
#include "check.h"
#include <string.h>

static const uint64_t missing1 = 0xFF, missing4 = 0xFFFFFFFF;

void put(struct section *s, size_t octet, size_t width, uint64_t number) {
    for (size_t i = 0; i < width; i++) s->octets[octet - 1 + i] = (uint8_t)(number >> (8 * (width - 1 - i)));
}

/* All octets that are not put stay 0. */
static void start(struct section *s, size_t n, uint8_t number) {
    check(n <= MOST_OCTETS, "a section has at most 65,536 octets");
    memset(s->octets, 0, sizeof s->octets);
    s->n = n;
    put(s, 1, 4, n);
    put(s, 5, 1, number);
}

static void put_time(struct section *s, size_t octet, unsigned day, unsigned hour) {
    put(s, octet, 2, 2024);
    put(s, octet + 2, 1, 3);
    put(s, octet + 3, 1, day);
    put(s, octet + 4, 1, hour);
}

static void make_identification(struct section *s) {
    start(s, 21, 1);
    put(s, 6, 2, 98);
    put(s, 10, 1, 21);
    put(s, 12, 1, 1);
    put_time(s, 13, 7, 12);
    put(s, 21, 1, 1);
}

static void make_grid(struct section *s, uint32_t ni, uint32_t nj) {
    start(s, 72, 3);
    put(s, 7, 4, (uint64_t)ni * nj);
    put(s, 15, 1, 6);
    for (size_t axis = 0; axis < 3; axis++) {
        put(s, 16 + 5 * axis, 1, missing1);
        put(s, 17 + 5 * axis, 4, missing4);
    }
    put(s, 31, 4, ni);
    put(s, 35, 4, nj);
    put(s, 43, 4, missing4);
    put(s, 47, 4, 60000000);
    put(s, 51, 4, 10000000);
    put(s, 55, 1, 48);
    put(s, 56, 4, 60000000 - 100000 * (nj - 1));
    put(s, 60, 4, 10000000 + 100000 * (ni - 1));
    put(s, 64, 4, 100000);
    put(s, 68, 4, 100000);
}

void make_listed_grid(struct section *s, uint32_t count) {
    uint64_t points = 0;
    make_grid(s, 1, 1);
    s->n = 72 + 2 * (size_t)count;
    check(s->n <= MOST_OCTETS, "a section has at most 65,536 octets");
    put(s, 1, 4, s->n);
    put(s, 11, 1, 2);
    put(s, 12, 1, 1);
    put(s, 31, 4, missing4);
    put(s, 35, 4, count);
    put(s, 64, 4, missing4);
    for (uint32_t row = 0; row < count; row++) {
        uint32_t length = 20 + row % 700;
        put(s, 73 + 2 * (size_t)row, 2, length);
        points += length;
    }
    put(s, 7, 4, points);
}

/* Octets 10 to 34 are the same in 4.0 and 4.8. */
static void make_product(struct section *s, size_t n, unsigned template) {
    start(s, n, 4);
    put(s, 8, 2, template);
    put(s, 10, 1, 1);
    put(s, 11, 1, 8);
    put(s, 12, 1, 2);
    put(s, 13, 1, missing1);
    put(s, 14, 1, 128);
    put(s, 18, 1, 1);
    put(s, 19, 4, 6);
    put(s, 23, 1, 1);
    put(s, 29, 1, missing1);
    put(s, 30, 1, missing1);
    put(s, 31, 4, missing4);
}

static void put_rain_interval(struct section *s) {
    put_time(s, 35, 8, 0);
    put(s, 42, 1, 1);
    put(s, 43, 4, 3);
    put(s, 47, 1, 1);
    put(s, 48, 1, 2);
    put(s, 49, 1, 1);
    put(s, 50, 4, 6);
    put(s, 54, 1, missing1);
}

/* Any octets are packed values; these have no pattern that a decoder could gain from. */
static void make_values(struct field *f, uint32_t count, uint8_t bits) {
    struct section *s5 = &f->sections[SECTION_5], *s7 = &f->sections[SECTION_7];
    uint32_t state = 2463534242;
    start(s5, 21, 5);
    put(s5, 6, 4, count);
    put(s5, 20, 1, bits);
    start(s7, 5 + ((size_t)count * bits + 7) / 8, 7);
    for (size_t i = 5; i < s7->n; i++) {
        state = state * 1664525 + 1013904223;
        s7->octets[i] = (uint8_t)(state >> 24);
    }
}

void make_rain(struct field *f, uint32_t ni, uint32_t nj, uint8_t bits) {
    make_identification(&f->sections[SECTION_1]);
    make_grid(&f->sections[SECTION_3], ni, nj);
    make_product(&f->sections[SECTION_4], 58, 8);
    put_rain_interval(&f->sections[SECTION_4]);
    make_values(f, ni * nj, bits);
}

void make_small(struct field *f) {
    make_identification(&f->sections[SECTION_1]);
    make_grid(&f->sections[SECTION_3], 2, 2);
    make_product(&f->sections[SECTION_4], 34, 0);
    make_values(f, 4, 8);
}

static void append(struct message *m, const void *octets, size_t n) {
    check(n <= sizeof m->octets - m->n, "the message has room");
    memcpy(m->octets + m->n, octets, n);
    m->n += n;
}

/* Sections before `from` stay where they stand for the field before. */
static void append_field(struct message *m, const struct field *f, int from) {
    static const uint8_t section6[6] = {0, 0, 0, 6, 6, 255};
    uint64_t k = m->fields++;
    if (from != SECTION_1) memcpy(m->spans[k], m->spans[k - 1], sizeof m->spans[k]);
    for (int i = from; i < SECTIONS; i++) {
        if (i == SECTION_7) append(m, section6, sizeof section6);
        if (i == SECTION_7) m->values_at = m->n + 5;
        m->spans[k][i][0] = m->n + 1;
        m->spans[k][i][1] = f->sections[i].n;
        append(m, f->sections[i].octets, f->sections[i].n);
    }
}

void make_message(struct message *m, struct field *f, uint64_t fields) {
    static const uint8_t section0[16] = {'G', 'R', 'I', 'B', 0, 0, 0, 2};
    check(fields <= MOST_FIELDS, "a message has at most 16 fields");
    m->n = m->fields = 0;
    append(m, section0, sizeof section0);
    while (m->fields < fields) {
        put(&f->sections[SECTION_4], 19, 4, 6 * (m->fields + 1));
        append_field(m, f, m->fields == 0 ? SECTION_1 : SECTION_4);
    }
    append(m, "7777", 4);
    for (size_t i = 0; i < 8; i++) m->octets[8 + i] = (uint8_t)((uint64_t)m->n >> (8 * (7 - i)));
}
