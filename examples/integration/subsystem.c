/* The subsystem Smooth, row 3 of the model, by itself. In every other tick its two functions are called the other way round. */
#include "code.c"

#include <stdio.h>

#define CYCLE 4
#define TICKS 9

static const int16_t error[TICKS] = {2560, 2048, 1536, 1279, 896, 640, -2048, -1791, -1024};

static struct s3 smooth;

static void give_outputs(int tick, int32_t now) {
    if (tick % 2 == 0) {
        s3_out1(&smooth, now, error[tick]);
        s3_out2(&smooth, now);
    } else {
        s3_out2(&smooth, now);
        s3_out1(&smooth, now, error[tick]);
    }
}

int main(void) {
    int32_t now = 0;
    s3_start(&smooth);
    for (int tick = 0; tick < TICKS; tick++) {
        give_outputs(tick, now);
        printf("%d %d %d\n", smooth.v9, smooth.v10, smooth.v11);
        s3_update(&smooth, now, error[tick]);
        now = (now + 1) % CYCLE;
    }
    return 0;
}
