#include "low_pass.h"

enum { COEFFICIENT = 13107 }; /* 0.2, with 16 bits after the point */

/* Both roundings take ties up: `>>` of gcc rounds down. */
static int16_t stage(int32_t *state, int16_t x) {
    const int32_t error = x * 256 - *state;
    *state += (int32_t)(((int64_t)error * COEFFICIENT + 32768) >> 16);
    const int32_t y = (*state + 128) >> 8;
    return (int16_t)(y < INT16_MIN ? INT16_MIN : y > INT16_MAX ? INT16_MAX : y);
}

void low_pass_start(struct low_pass *filter) {
    filter->first = 0;
    filter->second = 0;
}

struct low_passed low_pass_step(struct low_pass *filter, int16_t raw) {
    struct low_passed y;
    y.once = stage(&filter->first, raw);
    y.twice = stage(&filter->second, y.once);
    return y;
}
