/* A task of FreeRTOS that makes one tick every 10 ms. */
#include "FreeRTOS.h"
#include "task.h"

#include "board.h"
#include "code.c"

static struct root model;

void model_task(void *parameters) {
    TickType_t last = xTaskGetTickCount();
    (void)parameters;
    root_start(&model);
    for (;;) {
        const int16_t speed_wanted = read_wanted();
        const int16_t speed_seen = read_seen();
        root_step(&model, speed_wanted, speed_seen);
        write_drive(model.y1, model.y2, model.y3);
        if (xTaskDelayUntil(&last, pdMS_TO_TICKS(10)) == pdFALSE) {
            tell_late_tick();
        }
    }
}

void start_model(void) {
    static StackType_t stack[configMINIMAL_STACK_SIZE];
    static StaticTask_t task;
    (void)xTaskCreateStatic(model_task, "model", configMINIMAL_STACK_SIZE, NULL, 2, stack, &task);
}
