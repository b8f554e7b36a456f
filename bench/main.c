/* Times the library beside ecCodes and g2c, on the same octets, in one run. With --check only what has limits is timed, and the status is 1 where
   a ratio is worse than its limit by half. */
#include "bench.h"
#include "limits.h"
#include "timing.h"
#include <eccodes.h>
#include <grib2.h>
#include <stdio.h>
#include <string.h>

static void print_head(void) {
    long v = codes_get_api_version();
    printf("# Times beside ecCodes %ld.%ld.%ld and g2c %s\n\n", v / 10000, v / 100 % 100, v % 100, G2_VERSION);
    printf("A ratio below 1 says that ours is the faster one. Each number is the best of %u rounds of at least %.0f ms.\n\n", round_count(),
           round_milliseconds());
}

int main(int argc, char **argv) {
    int checks = argc == 2 && strcmp(argv[1], "--check") == 0;
    if (argc > 1 && !checks) {
        fprintf(stderr, "bench: usage: bench [--check]\n");
        return 2;
    }
    print_head();
    bench_unpacking();
    bench_few();
    if (checks) return all_within_limits() ? 0 : 1;
    bench_reading();
    bench_messages();
    bench_queues();
    bench_growth();
    return 0;
}
