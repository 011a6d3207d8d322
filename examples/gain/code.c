#include <stdint.h>

static int64_t round_nearest(int64_t v, int64_t d) {
    return ((((int64_t)v % (int64_t)d) >= ((int64_t)d / INT64_C(2))) ? (((int64_t)v / (int64_t)d) + INT64_C(1)) : ((((int64_t)v % (int64_t)d) < (-((int64_t)d / INT64_C(2)))) ? (((int64_t)v / (int64_t)d) - INT64_C(1)) : ((int64_t)v / (int64_t)d)));
}

static int64_t clamp(int64_t v, int64_t lo, int64_t hi) {
    return (((int64_t)v < (int64_t)lo) ? (int64_t)lo : (((int64_t)v > (int64_t)hi) ? (int64_t)hi : (int64_t)v));
}

/* the model */
struct top {
    int16_t v0; /* Inport "Raw" */
    int16_t v1; /* Gain "Scale" */
    int16_t v2; /* Outport "Scaled" */
};

struct root {
    int32_t now; /* tick of the cycle */
    int16_t y1; /* output 1 */
    struct top top; /* the model */
};

/* "Scaled" from "Raw" */
void top_out1(struct top *s, int32_t now, int16_t u1) {
    s->v0 = (int16_t)(int64_t)u1; /* Inport "Raw" */
    /* Gain "Scale" */
    s->v1 = (int16_t)clamp(round_nearest(((int64_t)s->v0 * INT64_C(5)), INT64_C(4)), (-INT64_C(32768)), INT64_C(32767));
    s->v2 = (int16_t)(int64_t)s->v1; /* Outport "Scaled" */
}

void top_update(struct top *s, int32_t now, int16_t u1) {
}

void top_start(struct top *s) {
    s->v0 = (int16_t)INT64_C(0); /* Inport "Raw" */
    s->v1 = (int16_t)INT64_C(0); /* Gain "Scale" */
    s->v2 = (int16_t)INT64_C(0); /* Outport "Scaled" */
}

void top_reset(struct top *s) {
}

void root_start(struct root *s) {
    top_start(&s->top); /* the model */
    s->y1 = (int16_t)(int64_t)s->top.v2; /* output 1 */
    s->now = (int32_t)INT64_C(0); /* tick of the cycle */
}

void root_step(struct root *s, int16_t u1) {
    top_out1(&s->top, (int32_t)(int64_t)s->now, (int16_t)(int64_t)u1); /* the model */
    top_update(&s->top, (int32_t)(int64_t)s->now, (int16_t)(int64_t)u1); /* the model */
    s->y1 = (int16_t)(int64_t)s->top.v2; /* output 1 */
    s->now = (int32_t)INT64_C(0); /* tick of the cycle */
}
