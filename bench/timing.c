/* For clock_gettime. */
#define _POSIX_C_SOURCE 200809L
#include "timing.h"
#include "check.h"
#include <stdlib.h>
#include <time.h>

enum { MOST_JOBS = 16 };

/* All results end here, so that no call can be left out. */
static volatile uint64_t used;

static double setting(const char *name, double otherwise) {
    const char *text = getenv(name);
    return text != NULL ? atof(text) : otherwise;
}

double round_milliseconds(void) {
    return setting("SKOGMUND_BENCH_MS", 50);
}

unsigned round_count(void) {
    double rounds = setting("SKOGMUND_BENCH_ROUNDS", 5);
    return rounds < 1 ? 1 : (unsigned)rounds;
}

static double now(void) {
    struct timespec t;
    check(clock_gettime(CLOCK_MONOTONIC, &t) == 0, "there is a monotonic clock");
    return (double)t.tv_sec * 1e9 + (double)t.tv_nsec;
}

static double round_of(const struct job *job, uint64_t repeats) {
    uint64_t results = 0;
    double began = now();
    for (uint64_t i = 0; i < repeats; i++) results += job->run(job->about);
    double ended = now();
    used += results;
    return ended - began;
}

/* Also warms the caches. */
static uint64_t repeats_for(const struct job *job, double milliseconds) {
    uint64_t repeats = 1;
    while (round_of(job, repeats) < milliseconds * 1e6) repeats *= 2;
    return repeats;
}

static void time_rounds(struct job *jobs, size_t count, double milliseconds) {
    uint64_t repeats[MOST_JOBS];
    check(count <= MOST_JOBS, "there is room for the jobs");
    for (size_t j = 0; j < count; j++) {
        repeats[j] = repeats_for(&jobs[j], milliseconds);
        jobs[j].nanoseconds = -1;
    }
    for (unsigned round = 0; round < round_count(); round++) {
        for (size_t j = 0; j < count; j++) {
            double taken = round_of(&jobs[j], repeats[j]) / (double)repeats[j];
            if (jobs[j].nanoseconds < 0 || taken < jobs[j].nanoseconds) jobs[j].nanoseconds = taken;
        }
    }
}

void time_jobs(struct job *jobs, size_t count) {
    time_rounds(jobs, count, round_milliseconds());
}

void time_short_jobs(struct job *jobs, size_t count) {
    time_rounds(jobs, count, round_milliseconds() / 10);
}
