/* Runs the filter for so many ticks over numbers that look random, and prints what its outputs come to and the nanoseconds of a tick: the
   emitted one, or, with BY_HAND, the one written by hand. Each is a unit of its own. */
#define _POSIX_C_SOURCE 199309L
#include <inttypes.h>
#include <stdio.h>
#include <stdlib.h>
#include <time.h>

#ifdef BY_HAND
#include "low_pass.h"
static struct low_pass filter;
static void start(void) { low_pass_start(&filter); }
static int64_t step(int16_t raw) {
    const struct low_passed y = low_pass_step(&filter, raw);
    return y.once + 3 * (int64_t)y.twice;
}
#else
#include "code.h"
static struct root filter;
static void start(void) { root_start(&filter); }
static int64_t step(int16_t raw) {
    root_step(&filter, raw);
    return filter.y1 + 3 * (int64_t)filter.y2;
}
#endif

int main(int argc, char **argv) {
    const long ticks = argc == 2 ? atol(argv[1]) : 0;
    uint32_t drawn = 1;
    uint64_t sum = 0;
    struct timespec from, to;
    start();
    clock_gettime(CLOCK_PROCESS_CPUTIME_ID, &from);
    for (long tick = 0; tick < ticks; tick++) {
        drawn = drawn * 1664525U + 1013904223U;
        sum = sum * 31 + (uint64_t)step((int16_t)(drawn >> 16));
    }
    clock_gettime(CLOCK_PROCESS_CPUTIME_ID, &to);
    printf("%" PRIu64 " %.3f\n", sum, ((double)(to.tv_sec - from.tv_sec) * 1e9 + (double)(to.tv_nsec - from.tv_nsec)) / (double)ticks);
    return 0;
}
