/* Unpacking the same packed values by the three libraries, and by each engine of ours alone. */
#include "unpacking.h"
#include "bench.h"
#include "check.h"
#include "fields.h"
#include "limits.h"
#include "packed.h"
#include "skogmund.h"
#include "timing.h"
#include <eccodes.h>
#include <stdio.h>
#include <string.h>

const uint8_t widths[WIDTHS] = {1, 4, 7, 8, 9, 12, 16, 20, 24, 32};

/* One N for all widths: at 32 bits section 7 has 64,005 of its at most 65,536 octets. */
enum { NI = 160, NJ = 100, N = NI * NJ };
/* The libraries, and behind them the engines. */
enum { OURS, GBITS, SIMUNPACK, ECCODES, LIBRARIES, ENGINES = 3, DECODERS = LIBRARIES + ENGINES };

/* What skogmund_unpack's time may be of theirs. */
static const double of_gbits = 1.0 / 5, of_eccodes = 1.0 / 3;

/* A job is about an object, and a function is none. */
struct engine {
    void (*unpack)(const uint8_t *packed, size_t n, uint32_t bits, uint32_t *row, size_t places);
};

static struct engine engines[ENGINES] = {{unpack_bits}, {unpack_octets}, {unpack}};
static struct field field;
static struct message message;
static struct {
    g2int bits;
    codes_handle *handle;
    uint32_t ours[N];
    g2int gbits[N];
    float simunpack[N];
    double eccodes[N];
    uint32_t engine[N];
} all;

static uint64_t by_ours(void *about) {
    const struct section *s5 = &field.sections[SECTION_5], *s7 = &field.sections[SECTION_7];
    (void)about;
    check(skogmund_unpack(s5->octets, s5->n, s7->octets, s7->n, all.ours, N) == 0, "skogmund_unpack accepts");
    return all.ours[N - 1];
}

static uint64_t by_gbits(void *about) {
    (void)about;
    gbits(message.octets + message.values_at, all.gbits, 0, all.bits, 0, N);
    return (uint64_t)all.gbits[N - 1];
}

static uint64_t by_simunpack(void *about) {
    g2int template[5] = {0, 0, 0, all.bits, 0}; /* R, E, D, bits, type */
    (void)about;
    check(simunpack(message.octets + message.values_at, template, N, all.simunpack) == 0, "simunpack accepts");
    return (uint64_t)all.simunpack[N - 1];
}

static uint64_t by_eccodes(void *about) {
    size_t count = N;
    (void)about;
    check(codes_get_double_array(all.handle, "values", all.eccodes, &count) == 0 && count == N, "ecCodes accepts");
    return (uint64_t)all.eccodes[N - 1];
}

static uint64_t by_engine(void *about) {
    const struct engine *engine = about;
    engine->unpack(message.octets + message.values_at, field.sections[SECTION_7].n - 5, (uint32_t)all.bits, all.engine, N);
    return all.engine[N - 1];
}

/* The rows are spoilt first, so that a place which nobody writes is found out. */
static void check_agreement(void) {
    memset(all.ours, 0xA5, sizeof all.ours);
    memset(all.gbits, 0xA6, sizeof all.gbits);
    memset(all.simunpack, 0xA7, sizeof all.simunpack);
    memset(all.eccodes, 0xA8, sizeof all.eccodes);
    by_ours(NULL);
    by_gbits(NULL);
    by_simunpack(NULL);
    by_eccodes(NULL);
    for (size_t i = 0; i < N; i++) {
        check(all.gbits[i] == all.ours[i], "gbits gives the same numbers");
        check(all.eccodes[i] == (double)all.ours[i], "ecCodes gives the same numbers");
        /* A float has 24 bits. */
        check(all.simunpack[i] == (float)all.ours[i], "simunpack gives the same numbers, rounded to floats");
    }
}

static void check_engines(void) {
    for (size_t i = 0; i < ENGINES; i++) {
        memset(all.engine, 0xA9, sizeof all.engine);
        by_engine(&engines[i]);
        check(memcmp(all.engine, all.ours, sizeof all.ours) == 0, "each engine gives the same numbers");
    }
}

/* ecCodes' handle lies over the message. If it kept values from one decoding to the next, it would not see this change. */
static void check_nothing_kept(void) {
    double before = all.eccodes[0];
    message.octets[message.values_at] ^= 0x80;
    by_eccodes(NULL);
    check(all.eccodes[0] != before, "ecCodes decodes anew each time");
    message.octets[message.values_at] ^= 0x80;
}

static void time_width(uint8_t bits, struct job *jobs) {
    static const struct job libraries[LIBRARIES] = {{by_ours, NULL, 0}, {by_gbits, NULL, 0}, {by_simunpack, NULL, 0}, {by_eccodes, NULL, 0}};
    memcpy(jobs, libraries, sizeof libraries);
    for (size_t i = 0; i < ENGINES; i++) jobs[LIBRARIES + i] = (struct job){by_engine, &engines[i], 0};
    make_rain(&field, NI, NJ, bits);
    make_message(&message, &field, 1);
    all.bits = bits;
    all.handle = codes_handle_new_from_message(NULL, message.octets, message.n);
    check(all.handle != NULL, "ecCodes takes the message");
    check_agreement();
    check_engines();
    check_nothing_kept();
    time_jobs(jobs, DECODERS);
    codes_handle_delete(all.handle);
}

static double ratio_of(const struct job *jobs, int ours, int theirs) {
    return jobs[ours].nanoseconds / jobs[theirs].nanoseconds;
}

static void print_libraries(uint8_t bits, const struct job *jobs) {
    note_ratio((struct ratio){"skogmund_unpack / gbits", N, bits, ratio_of(jobs, OURS, GBITS), of_gbits});
    note_ratio((struct ratio){"skogmund_unpack / ecCodes", N, bits, ratio_of(jobs, OURS, ECCODES), of_eccodes});
    printf("| %d |", bits);
    for (int d = GBITS; d < LIBRARIES; d++) printf(" %.2f |", ratio_of(jobs, OURS, d));
    for (int d = OURS; d < LIBRARIES; d++) printf(" %.2f |", jobs[d].nanoseconds / N);
    printf("\n");
    fflush(stdout);
}

static void print_engines(uint8_t bits, const struct job *jobs) {
    printf("| %d |", bits);
    for (int d = LIBRARIES; d < DECODERS; d++) printf(" %.2f |", ratio_of(jobs, d, GBITS));
    for (int d = LIBRARIES; d < DECODERS; d++) printf(" %.2f |", jobs[d].nanoseconds / N);
    printf(" %.2f |\n", jobs[GBITS].nanoseconds / N);
}

/* Libraries and engines are timed together at each width, so that both tables have the same times of gbits. */
void bench_unpacking(void) {
    static struct job jobs[WIDTHS][DECODERS];
    printf("## Unpacking %d values\n\n", N);
    printf("Nanoseconds a value. Buffers are not cleared between calls; each call writes every place. ");
    printf("Ours may take %.2f of gbits' time and %.2f of ecCodes'.\n\n", of_gbits, of_eccodes);
    printf("| bits | ours / gbits | ours / simunpack | ours / ecCodes | ours | g2c gbits | g2c simunpack | ecCodes |\n");
    printf("|---:|---:|---:|---:|---:|---:|---:|---:|\n");
    for (size_t i = 0; i < WIDTHS; i++) {
        time_width(widths[i], jobs[i]);
        print_libraries(widths[i], jobs[i]);
    }
    printf("\n## The engines by themselves\n\n");
    printf("The same octets, without sections. Nanoseconds a value.\n\n");
    printf("| bits | unpack_bits / gbits | unpack_octets / gbits | unpack / gbits | unpack_bits | unpack_octets | unpack | g2c gbits |\n");
    printf("|---:|---:|---:|---:|---:|---:|---:|---:|\n");
    for (size_t i = 0; i < WIDTHS; i++) print_engines(widths[i], jobs[i]);
    printf("\n");
    fflush(stdout);
}
