/* How the time grows with the input. Each input has twice the size of the one before. */
#include "bench.h"
#include "check.h"
#include "messages.h"
#include "queues.h"
#include "skogmund.h"
#include "timing.h"
#include <stdio.h>

enum { MOST_SIZES = 6, QUEUES = 4, MESSAGES = 5, MOST_VALUES = 32000, BITS = 12 };

static struct field fields[MOST_SIZES];
static struct section grids[MOST_SIZES];
static struct queue queues[QUEUES];
static struct message messages[MESSAGES];

static uint64_t unpack(void *about) {
    static uint32_t row[MOST_VALUES];
    const struct field *f = about;
    const struct section *s5 = &f->sections[SECTION_5], *s7 = &f->sections[SECTION_7];
    size_t count = (s7->n - 5) * 8 / BITS;
    check(skogmund_unpack(s5->octets, s5->n, s7->octets, s7->n, row, count) == 0, "skogmund_unpack accepts");
    return row[count - 1];
}

static uint64_t read_grid(void *about) {
    static int64_t values[SKOGMUND_VALUES];
    const struct section *s = about;
    check(skogmund_read(3, s->octets, s->n, values, SKOGMUND_VALUES) == 0, "skogmund_read accepts");
    return (uint64_t)values[4];
}

static void print_growth(const char *what, const char *sizes, struct job *jobs, size_t count) {
    time_jobs(jobs, count);
    printf("| %s | %s |", what, sizes);
    for (size_t i = 1; i < count; i++) printf("%s %.2f", i == 1 ? "" : ",", jobs[i].nanoseconds / jobs[i - 1].nanoseconds);
    printf(" |\n");
    fflush(stdout);
}

void bench_growth(void) {
    struct job unpacking[MOST_SIZES], filing[QUEUES], listing[QUEUES], reading[MOST_SIZES], cutting[MESSAGES];
    for (size_t i = 0; i < MOST_SIZES; i++) {
        make_rain(&fields[i], 100, 10u << i, BITS);
        make_listed_grid(&grids[i], 1000u << i);
        unpacking[i] = (struct job){unpack, &fields[i], 0};
        reading[i] = (struct job){read_grid, &grids[i], 0};
    }
    for (size_t i = 0; i < QUEUES; i++) {
        make_queue(&queues[i], 50u << i, 0);
        check(queues[i].records == 50u << i, "the queue has as many records as it should");
        filing[i] = (struct job){file_into_empty, &queues[i], 0};
        listing[i] = (struct job){list_queue, &queues[i], 0};
    }
    for (size_t i = 0; i < MESSAGES; i++) {
        make_message(&messages[i], &fields[0], 1u << i);
        cutting[i] = (struct job){cut_message, &messages[i], 0};
    }
    printf("## Growth\n\n");
    printf("What the time is multiplied by when the size doubles; 2 is growth in proportion.\n\n");
    printf("| what | sizes | factors |\n|---|---|---|\n");
    print_growth("unpacking values of 12 bits", "1,000 to 32,000", unpacking, MOST_SIZES);
    print_growth("filing a queue, making the shelf empty included, records", "50 to 400", filing, QUEUES);
    print_growth("listing a queue, records", "50 to 400", listing, QUEUES);
    print_growth("reading section 3, numbers in its list", "1,000 to 32,000", reading, MOST_SIZES);
    print_growth("cutting a message, fields", "1 to 16", cutting, MESSAGES);
    printf("\n");
}
