/* The sensors and the drive of task.c. */
#ifndef BOARD_H
#define BOARD_H

#include <stdint.h>

int16_t read_wanted(void);
int16_t read_seen(void);
void write_drive(int16_t mean, int16_t slow, uint8_t grows);
void tell_late_tick(void);

/* The two procedures of task.c. */
void model_task(void *parameters);
void start_model(void);

#endif
