/* The parts of the benchmark. Each checks what it is about to time, times it and prints a Markdown table. */
#ifndef BENCH_BENCH_H
#define BENCH_BENCH_H

void bench_unpacking(void);
void bench_few(void);
void bench_reading(void);
void bench_messages(void);
void bench_queues(void);
void bench_growth(void);

#endif
