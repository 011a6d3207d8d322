/* Two instances of one model, each with inputs of its own: the second one sees what the first one wants, and wants what it sees. */
#include "code.c"
#include "speeds.h"

#include <stdio.h>

static struct root left;
static struct root right;

int main(void) {
    root_start(&left);
    root_start(&right);
    for (int tick = 0; tick < TICKS; tick++) {
        root_step(&left, wanted[tick], seen[tick]);
        root_step(&right, seen[tick], wanted[tick]);
        printf("%d %d %d | %d %d %d\n", left.y1, left.y2, left.y3, right.y1, right.y2, right.y3);
    }
    return 0;
}
