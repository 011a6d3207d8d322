#include <stdint.h>

/* The model of examples/low_pass as one would write it by hand: two stages, each with its state, with 12 bits after the point. */
struct low_pass {
    int32_t first;
    int32_t second;
};

struct low_passed {
    int16_t once;
    int16_t twice;
};

void low_pass_start(struct low_pass *filter);
struct low_passed low_pass_step(struct low_pass *filter, int16_t raw);
