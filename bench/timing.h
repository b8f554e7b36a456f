/* Timing jobs side by side. */
#ifndef BENCH_TIMING_H
#define BENCH_TIMING_H

#include <stddef.h>
#include <stdint.h>

/* `run` does the job once and answers a number that depends on its result. `time_jobs` puts into `nanoseconds` what one run takes. */
struct job {
    uint64_t (*run)(void *about);
    void *about;
    double nanoseconds;
};

/* Each job is repeated until a round takes SKOGMUND_BENCH_MS milliseconds (50), and the best of SKOGMUND_BENCH_ROUNDS rounds (5) counts:
   what else the machine does can only make a round longer. Rounds of all jobs take turns, so that a slow stretch meets all alike. */
void time_jobs(struct job *jobs, size_t count);

/* The same with rounds a tenth as long, for many jobs that are short. */
void time_short_jobs(struct job *jobs, size_t count);

/* The two settings as they are in force. */
double round_milliseconds(void);
unsigned round_count(void);

#endif
