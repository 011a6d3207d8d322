#include <stdint.h>

static int64_t round_floor(int64_t v, int64_t d) {
    return ((((int64_t)v % (int64_t)d) < INT64_C(0)) ? (((int64_t)v / (int64_t)d) - INT64_C(1)) : ((int64_t)v / (int64_t)d));
}

static int64_t round_nearest(int64_t v, int64_t d) {
    return ((((int64_t)v % (int64_t)d) >= ((int64_t)d / INT64_C(2))) ? (((int64_t)v / (int64_t)d) + INT64_C(1)) : ((((int64_t)v % (int64_t)d) < (-((int64_t)d / INT64_C(2)))) ? (((int64_t)v / (int64_t)d) - INT64_C(1)) : ((int64_t)v / (int64_t)d)));
}

static int64_t clamp(int64_t v, int64_t lo, int64_t hi) {
    return (((int64_t)v < (int64_t)lo) ? (int64_t)lo : (((int64_t)v > (int64_t)hi) ? (int64_t)hi : (int64_t)v));
}

static int64_t wrap(int64_t v, int64_t lo, int64_t n) {
    return (((((int64_t)v - (int64_t)lo) % (int64_t)n) < INT64_C(0)) ? (((((int64_t)v - (int64_t)lo) % (int64_t)n) + (int64_t)n) + (int64_t)lo) : ((((int64_t)v - (int64_t)lo) % (int64_t)n) + (int64_t)lo));
}

/* the model */
struct top {
    int16_t v0; /* Inport "Gyro" */
    int16_t v1; /* RateTransition "To slow" */
    int32_t v2; /* UnitDelay "Last bias" */
    int32_t v3; /* Sum "Error" */
    int32_t v4; /* Gain "Quarter" */
    int32_t v5; /* Sum "Next bias" */
    int32_t v6; /* RateTransition "To fast" */
    int16_t v7; /* Sum "Minus bias" */
    int16_t v8; /* Outport "Turn rate" */
    int32_t v9; /* Outport "Bias" */
    int32_t m2; /* memory of UnitDelay "Last bias" */
    int32_t m6; /* memory of RateTransition "To fast" */
};

struct root {
    int32_t now; /* tick of the cycle */
    int16_t y1; /* output 1 */
    int32_t y2; /* output 2 */
    struct top top; /* the model */
};

/* "Turn rate", "Bias" from "Gyro" */
void top_out1(struct top *s, int32_t now, int16_t u1) {
    s->v0 = (int16_t)(int64_t)u1; /* Inport "Gyro" */
    if (((int64_t)now % INT64_C(4)) == INT64_C(0)) {
        s->v1 = (int16_t)(int64_t)s->v0; /* RateTransition "To slow" */
        s->v2 = (int32_t)(int64_t)s->m2; /* UnitDelay "Last bias" */
        /* Sum "Error" */
        s->v3 = (int32_t)wrap((((int64_t)s->v1 * INT64_C(256)) + (-(int64_t)s->v2)), (-INT64_C(2147483648)), INT64_C(4294967296));
        s->v4 = (int32_t)round_floor((int64_t)s->v3, INT64_C(4)); /* Gain "Quarter" */
        /* Sum "Next bias" */
        s->v5 = (int32_t)wrap(((int64_t)s->v2 + (int64_t)s->v4), (-INT64_C(2147483648)), INT64_C(4294967296));
        s->v6 = (int32_t)(int64_t)s->m6; /* RateTransition "To fast" */
    }
    /* Sum "Minus bias" */
    s->v7 = (int16_t)clamp(round_nearest((((int64_t)s->v0 * INT64_C(256)) + (-(int64_t)s->v6)), INT64_C(256)), (-INT64_C(32768)), INT64_C(32767));
    s->v8 = (int16_t)(int64_t)s->v7; /* Outport "Turn rate" */
    if (((int64_t)now % INT64_C(4)) == INT64_C(0)) {
        s->v9 = (int32_t)(int64_t)s->v5; /* Outport "Bias" */
    }
}

void top_update(struct top *s, int32_t now, int16_t u1) {
    if (((int64_t)now % INT64_C(4)) == INT64_C(0)) {
        s->m2 = (int32_t)(int64_t)s->v5; /* memory of UnitDelay "Last bias" */
        s->m6 = (int32_t)(int64_t)s->v5; /* memory of RateTransition "To fast" */
    }
}

void top_start(struct top *s) {
    s->v0 = (int16_t)INT64_C(0); /* Inport "Gyro" */
    s->v1 = (int16_t)INT64_C(0); /* RateTransition "To slow" */
    s->v2 = (int32_t)INT64_C(0); /* UnitDelay "Last bias" */
    s->v3 = (int32_t)INT64_C(0); /* Sum "Error" */
    s->v4 = (int32_t)INT64_C(0); /* Gain "Quarter" */
    s->v5 = (int32_t)INT64_C(0); /* Sum "Next bias" */
    s->v6 = (int32_t)INT64_C(0); /* RateTransition "To fast" */
    s->v7 = (int16_t)INT64_C(0); /* Sum "Minus bias" */
    s->v8 = (int16_t)INT64_C(0); /* Outport "Turn rate" */
    s->v9 = (int32_t)INT64_C(0); /* Outport "Bias" */
    s->m2 = (int32_t)INT64_C(0); /* memory of UnitDelay "Last bias" */
    s->m6 = (int32_t)INT64_C(0); /* memory of RateTransition "To fast" */
}

void top_reset(struct top *s) {
    s->m2 = (int32_t)INT64_C(0); /* memory of UnitDelay "Last bias" */
    s->m6 = (int32_t)INT64_C(0); /* memory of RateTransition "To fast" */
}

void root_start(struct root *s) {
    top_start(&s->top); /* the model */
    s->y1 = (int16_t)(int64_t)s->top.v8; /* output 1 */
    s->y2 = (int32_t)(int64_t)s->top.v9; /* output 2 */
    s->now = (int32_t)INT64_C(0); /* tick of the cycle */
}

void root_step(struct root *s, int16_t u1) {
    top_out1(&s->top, (int32_t)(int64_t)s->now, (int16_t)(int64_t)u1); /* the model */
    top_update(&s->top, (int32_t)(int64_t)s->now, (int16_t)(int64_t)u1); /* the model */
    s->y1 = (int16_t)(int64_t)s->top.v8; /* output 1 */
    s->y2 = (int32_t)(int64_t)s->top.v9; /* output 2 */
    s->now = (int32_t)(((int64_t)s->now + INT64_C(1)) % INT64_C(4)); /* tick of the cycle */
}
