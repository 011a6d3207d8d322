/* One tick every 10 ms by the clock of a POSIX system. */
#define _POSIX_C_SOURCE 200112L

#include "code.c"
#include "speeds.h"

#include <stdio.h>
#include <time.h>

#define PERIOD_NS 10000000L
#define SECOND_NS 1000000000L

static struct root model;

static void add_period(struct timespec *due) {
    due->tv_nsec += PERIOD_NS;
    if (due->tv_nsec >= SECOND_NS) {
        due->tv_nsec -= SECOND_NS;
        due->tv_sec += 1;
    }
}

int main(void) {
    struct timespec due;
    root_start(&model);
    clock_gettime(CLOCK_MONOTONIC, &due);
    for (int tick = 0; tick < TICKS; tick++) {
        root_step(&model, wanted[tick], seen[tick]);
        printf("%d %d %d\n", model.y1, model.y2, model.y3);
        add_period(&due);
        while (clock_nanosleep(CLOCK_MONOTONIC, TIMER_ABSTIME, &due, NULL) != 0) {
        }
    }
    return 0;
}
