/* The model as a unit with a name of its own: all that other units call. */
#include "code.c"
#include "unit.h"

static struct root model;

void smooth_start(void) { root_start(&model); }

void smooth_step(const struct smooth_inputs *in, struct smooth_outputs *out) {
    root_step(&model, in->wanted, in->seen);
    out->mean = model.y1;
    out->slow = model.y2;
    out->grows = model.y3;
}
