#ifndef TASK_H
#define TASK_H

#include "FreeRTOS.h"

typedef struct task *TaskHandle_t;
typedef void (*TaskFunction_t)(void *parameters);

TickType_t xTaskGetTickCount(void);
BaseType_t xTaskDelayUntil(TickType_t *last, TickType_t period);
TaskHandle_t xTaskCreateStatic(TaskFunction_t code, const char *name, uint32_t depth, void *parameters, UBaseType_t priority,
                               StackType_t *stack, StaticTask_t *task);

#endif
