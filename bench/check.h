/* What has to hold before anything is timed. */
#ifndef BENCH_CHECK_H
#define BENCH_CHECK_H

/* Ends the program where `holds` is 0, and says what did not hold: a wrong answer has no speed. */
void check(int holds, const char *what);

#endif
