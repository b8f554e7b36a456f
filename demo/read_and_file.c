/* Reads a section, files the queue on standard input to an empty shelf, and says what slot 7 holds then. */
#include "skogmund.h"
#include <inttypes.h>
#include <stdio.h>

static int refused(const char *what, uint64_t refusal) {
    fprintf(stderr, "the %s is refused: number %u, section %u, place %u\n", what, SKOGMUND_NUMBER(refusal), SKOGMUND_SECTION(refusal),
            SKOGMUND_PLACE(refusal));
    return 1;
}

int main(void) {
    static const uint8_t section5[21] = {0, 0, 0, 21, 5, 0, 0, 0, 3, 0, 0, 0, 0, 0, 0, 0x80, 1, 0, 0, 5, 0};
    static uint8_t queue[65537], shelf[SKOGMUND_SHELF]; /* zero, and so empty */
    int64_t v[SKOGMUND_VALUES];
    uint64_t counts[3], refusal = skogmund_read(5, section5, sizeof section5, v, SKOGMUND_VALUES);
    if (refusal != 0) return refused("section", refusal);
    printf("N %" PRId64 " E %" PRId64 " bits %" PRId64 "\n", v[3], v[6], v[8]);
    size_t n = fread(queue, 1, sizeof queue, stdin);
    if (ferror(stdin)) {
        fputs("standard input can't be read\n", stderr);
        return 1;
    }
    refusal = skogmund_file_queue(shelf, sizeof shelf, queue, n, counts, 3);
    if (refusal != 0) return refused("queue", refusal);
    printf("kept %" PRIu64 " passed %" PRIu64 " refused %" PRIu64 "\n", counts[0], counts[1], counts[2]);
    if (skogmund_slot(shelf, sizeof shelf, 7, v, SKOGMUND_VALUES) == 0 && v[0] != 0)
        printf("slot 7: %" PRId64 "-%02" PRId64 "-%02" PRId64 ", issue %" PRId64 "\n", v[1], v[2], v[3], v[7]);
    return 0;
}
