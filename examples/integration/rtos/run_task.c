/* Runs the task of task.c for so many ticks, on this machine: each wait of the task ends at once, and the last one ends the program. */
#include "../speeds.h"
#include "board.h"
#include "task.h"

#include <stdio.h>
#include <stdlib.h>

static TickType_t time_now;
static int ticks_done;
static TaskFunction_t created;

int16_t read_wanted(void) { return wanted[ticks_done]; }

int16_t read_seen(void) { return seen[ticks_done]; }

void write_drive(int16_t mean, int16_t slow, uint8_t grows) { printf("%d %d %d\n", mean, slow, grows); }

void tell_late_tick(void) { puts("late"); }

TickType_t xTaskGetTickCount(void) { return time_now; }

BaseType_t xTaskDelayUntil(TickType_t *last, TickType_t period) {
    ticks_done++;
    if (ticks_done == TICKS) {
        exit(0);
    }
    *last += period;
    time_now = *last;
    return pdTRUE;
}

TaskHandle_t xTaskCreateStatic(TaskFunction_t code, const char *name, uint32_t depth, void *parameters, UBaseType_t priority,
                               StackType_t *stack, StaticTask_t *task) {
    (void)name, (void)depth, (void)parameters, (void)priority, (void)stack, (void)task;
    created = code;
    return NULL;
}

int main(void) {
    start_model();
    created(NULL);
    return 1;
}
