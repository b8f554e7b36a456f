/* Cuts the message on standard input into its fields, files them as issue 40 to slots 0, 1, ... of an empty shelf, and says what became of
   each and what the shelf holds then. */
#include "skogmund.h"
#include <inttypes.h>
#include <stdio.h>

enum { ISSUE = 40, SLOTS = 64 };

static uint8_t message[65537], shelf[SKOGMUND_SHELF]; /* zero, and so empty */

static int refused(const char *what, uint64_t refusal) {
    fprintf(stderr, "the %s is refused: number %u, section %u, place %u\n", what, SKOGMUND_NUMBER(refusal), SKOGMUND_SECTION(refusal),
            SKOGMUND_PLACE(refusal));
    return 1;
}

/* Spans count octets from 1. */
static const uint8_t *at(uint64_t first) {
    return message + (first - 1);
}

/* The sections are lent where they stand in the message, without a copy. Of what was cut only 17 is left to refuse. */
static int file(uint64_t k, const uint64_t *s) {
    uint64_t kept, refusal = skogmund_file(shelf, sizeof shelf, k, ISSUE + 1, at(s[0]), s[1], at(s[2]), s[3], at(s[4]), s[5], at(s[6]), s[7],
                                           at(s[8]), s[9], &kept, 1);
    if (refusal != 0) return refused("field", refusal);
    printf("field %" PRIu64 " to slot %" PRIu64 ": %s\n", k + 1, k, kept ? "kept" : "passed");
    return 0;
}

static void print_slot(uint64_t slot) {
    int64_t v[SKOGMUND_VALUES];
    if (skogmund_slot(shelf, sizeof shelf, slot, v, SKOGMUND_VALUES) != 0 || v[0] == 0) return;
    printf("slot %" PRIu64 ": %" PRId64 "-%02" PRId64 "-%02" PRId64 ", issue %" PRId64 ", template 4.%" PRId64 "\n", slot, v[1], v[2], v[3],
           v[7], v[8] * 256 + v[9]);
}

int main(void) {
    uint64_t spans[SKOGMUND_SPANS], count;
    int failed = 0;
    size_t n = fread(message, 1, sizeof message, stdin);
    if (ferror(stdin)) {
        fputs("standard input can't be read\n", stderr);
        return 1;
    }
    uint64_t refusal = skogmund_message(message, n, spans, SKOGMUND_SPANS, &count, 1);
    if (refusal != 0) return refused("message", refusal);
    for (uint64_t k = 0; k < count; k++) failed |= file(k, spans + 10 * k);
    for (uint64_t slot = 0; slot < SLOTS; slot++) print_slot(slot);
    return failed;
}
