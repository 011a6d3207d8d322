/* A program with two models: this unit holds the code of one, and calls the other one by the procedures of its unit. */
#include "code.c"
#include "speeds.h"
#include "unit.h"

#include <stdio.h>

static struct root own;

int main(void) {
    root_start(&own);
    smooth_start();
    for (int tick = 0; tick < TICKS; tick++) {
        const struct smooth_inputs in = {seen[tick], wanted[tick]};
        struct smooth_outputs out;
        root_step(&own, wanted[tick], seen[tick]);
        smooth_step(&in, &out);
        printf("%d %d %d | %d %d %d\n", own.y1, own.y2, own.y3, out.mean, out.slow, out.grows);
    }
    return 0;
}
