/* The code in a unit of its own: this one knows it by the header that bench/header makes of it, and is linked with it. */
#include "code.h"
#include "speeds.h"

#include <stdio.h>

static struct root model;

int main(void) {
    root_start(&model);
    for (int tick = 0; tick < TICKS; tick++) {
        root_step(&model, wanted[tick], seen[tick]);
        printf("%d %d %d\n", model.y1, model.y2, model.y3);
    }
    return 0;
}
