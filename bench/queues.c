/* Filing and listing queues, joining shelves. */
#include "queues.h"
#include "bench.h"
#include "check.h"
#include "skogmund.h"
#include "timing.h"
#include <stdio.h>
#include <string.h>

enum { SLOTS = 64, TEXT = 16384 };

static uint8_t shelf[SKOGMUND_SHELF];

static void append_number(struct queue *q, uint64_t number) {
    for (; number >= 128; number >>= 7) q->octets[q->n++] = (uint8_t)(number | 128);
    q->octets[q->n++] = (uint8_t)number;
}

static void append_record(struct queue *q, uint64_t slot, uint64_t issue, const struct field *f) {
    size_t body = 0;
    for (int i = 0; i < SECTIONS; i++) body += f->sections[i].n;
    append_number(q, slot);
    append_number(q, issue + 1);
    append_number(q, body);
    for (int i = 0; i < SECTIONS; i++) {
        memcpy(q->octets + q->n, f->sections[i].octets, f->sections[i].n);
        q->n += f->sections[i].n;
    }
}

void make_queue(struct queue *q, uint64_t most, unsigned seed) {
    static struct field field;
    uint64_t greatest[SLOTS] = {0};
    make_small(&field);
    *q = (struct queue){.n = 0};
    for (uint64_t i = 0; i < most && q->n + 170 <= MOST_OCTETS; i++) {
        uint64_t day = 1 + (i * 11 + seed) % 28, hour = (i * 5 + 3 * seed) % 24;
        /* The order of these cards: the time, then the issue. */
        uint64_t card = (day * 24 + hour) * 65536 + i;
        put(&field.sections[SECTION_1], 16, 1, day);
        put(&field.sections[SECTION_1], 17, 1, hour);
        append_record(q, i % SLOTS, i, &field);
        q->records++;
        if (card > greatest[i % SLOTS]) {
            greatest[i % SLOTS] = card;
            q->kept++;
        }
    }
}

static void file(const struct queue *q, uint64_t *counts) {
    check(skogmund_file_queue(shelf, sizeof shelf, q->octets, q->n, counts, 3) == 0, "the queue is accepted");
}

uint64_t file_into_empty(void *queue) {
    const struct queue *q = queue;
    uint64_t counts[3];
    check(skogmund_empty(shelf, sizeof shelf) == 0, "a shelf is made empty");
    file(q, counts);
    check(counts[0] == q->kept && counts[1] == q->records - q->kept && counts[2] == 0, "the counts are those of the queue");
    return shelf[sizeof shelf - 1];
}

uint64_t list_queue(void *queue) {
    static uint8_t text[TEXT];
    const struct queue *q = queue;
    uint64_t length = 0;
    char last[80];
    size_t n = (size_t)snprintf(last, sizeof last, "\nkept %llu passed %llu refused 0\n", (unsigned long long)q->kept,
                                (unsigned long long)(q->records - q->kept));
    check(skogmund_list(q->octets, q->n, text, sizeof text, &length, 1) == 0, "the queue is listed");
    check(length > n && memcmp(text + length - n, last, n) == 0, "the listing ends with the counts");
    return length;
}

/* Two shelves; a join changes the first, so each join starts from a copy. */
struct shelves {
    uint8_t one[SKOGMUND_SHELF], other[SKOGMUND_SHELF];
};

static uint64_t join(void *about) {
    const struct shelves *both = about;
    memcpy(shelf, both->one, sizeof shelf);
    check(skogmund_join(shelf, sizeof shelf, both->other, sizeof both->other) == 0, "the shelves are joined");
    return shelf[sizeof shelf - 1];
}

/* A join has to make what filing the one queue after the other makes. */
static void make_shelves(struct shelves *both, struct queue *q, struct queue *r) {
    uint8_t filed[SKOGMUND_SHELF];
    uint64_t counts[3];
    file_into_empty(r);
    memcpy(both->other, shelf, sizeof shelf);
    file_into_empty(q);
    memcpy(both->one, shelf, sizeof shelf);
    file(r, counts);
    check(counts[0] > 0 && counts[1] > 0, "the two shelves differ both ways");
    memcpy(filed, shelf, sizeof shelf);
    join(both);
    check(memcmp(filed, shelf, sizeof shelf) == 0, "a join makes what filing makes");
}

static void print_queues(const struct queue *q, const struct job *filing, const struct job *listing, const struct job *joining) {
    double records = (double)q->records;
    printf("## Queues and shelves\n\n");
    printf("A queue of %zu octets with %llu records, %llu kept and the others passed. The others have nothing like it, so there is no ratio.\n\n",
           q->n, (unsigned long long)q->records, (unsigned long long)q->kept);
    printf("| what | ns | records a second |\n|---|---:|---:|\n");
    printf("| filing the queue, making the shelf empty included | %.0f | %.0f |\n", filing->nanoseconds, records / filing->nanoseconds * 1e9);
    printf("| listing the queue | %.0f | %.0f |\n", listing->nanoseconds, records / listing->nanoseconds * 1e9);
    printf("| joining two full shelves, copying one of them included | %.0f | |\n\n", joining->nanoseconds);
    fflush(stdout);
}

void bench_queues(void) {
    static struct queue q, r;
    static struct shelves both;
    struct job jobs[3] = {{file_into_empty, &q, 0}, {list_queue, &q, 0}, {join, &both, 0}};
    make_queue(&q, UINT64_MAX, 0);
    make_queue(&r, UINT64_MAX, 5);
    make_shelves(&both, &q, &r);
    list_queue(&q);
    time_jobs(jobs, 3);
    print_queues(&q, &jobs[0], &jobs[1], &jobs[2]);
}
