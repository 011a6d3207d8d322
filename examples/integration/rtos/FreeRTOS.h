/* What task.c asks of FreeRTOS, so that it can be compiled and run without it. */
#ifndef FREERTOS_H
#define FREERTOS_H

#include <stddef.h>
#include <stdint.h>

typedef uint32_t TickType_t;
typedef int32_t BaseType_t;
typedef uint32_t UBaseType_t;
typedef uint32_t StackType_t;
typedef struct { int none; } StaticTask_t;

#define pdFALSE ((BaseType_t)0)
#define pdTRUE ((BaseType_t)1)
#define configMINIMAL_STACK_SIZE 128u
#define pdMS_TO_TICKS(ms) ((TickType_t)(ms))

#endif
