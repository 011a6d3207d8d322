/* A main loop without a system below it: an interrupt counts the ticks that are due. Here a timer's signal is the interrupt. */
#define _XOPEN_SOURCE 600

#include "code.c"
#include "speeds.h"

#include <signal.h>
#include <stdio.h>
#include <sys/time.h>

#define PERIOD_US 10000

static volatile sig_atomic_t ticks_due;

static void timer_interrupt(int number) {
    (void)number;
    ticks_due = ticks_due + 1;
}

static void start_timer(void) {
    const struct itimerval period = {{0, PERIOD_US}, {0, PERIOD_US}};
    struct sigaction action = {0};
    action.sa_handler = timer_interrupt;
    action.sa_flags = SA_RESTART;
    sigaction(SIGALRM, &action, NULL);
    setitimer(ITIMER_REAL, &period, NULL);
}

int main(void) {
    static struct root model;
    int ticks_done = 0;
    root_start(&model);
    start_timer();
    while (ticks_done < TICKS) {
        if (ticks_done < ticks_due) {
            root_step(&model, wanted[ticks_done], seen[ticks_done]);
            printf("%d %d %d\n", model.y1, model.y2, model.y3);
            ticks_done++;
        }
    }
    return 0;
}
