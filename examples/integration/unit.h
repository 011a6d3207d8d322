#ifndef SMOOTH_UNIT_H
#define SMOOTH_UNIT_H

#include <stdint.h>

/* Speeds have 8 bits after the point. */
struct smooth_inputs {
    int16_t wanted;
    int16_t seen;
};

struct smooth_outputs {
    int16_t mean;
    int16_t slow;
    uint8_t grows;
};

void smooth_start(void);
void smooth_step(const struct smooth_inputs *in, struct smooth_outputs *out);

#endif
