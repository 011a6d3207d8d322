#include <stdint.h>

static int64_t round_floor(int64_t v, int64_t d) {
    return ((((int64_t)v % (int64_t)d) < INT64_C(0)) ? (((int64_t)v / (int64_t)d) - INT64_C(1)) : ((int64_t)v / (int64_t)d));
}

static int64_t clamp(int64_t v, int64_t lo, int64_t hi) {
    return (((int64_t)v < (int64_t)lo) ? (int64_t)lo : (((int64_t)v > (int64_t)hi) ? (int64_t)hi : (int64_t)v));
}

static int64_t wrap(int64_t v, int64_t lo, int64_t n) {
    return (((((int64_t)v - (int64_t)lo) % (int64_t)n) < INT64_C(0)) ? (((((int64_t)v - (int64_t)lo) % (int64_t)n) + (int64_t)n) + (int64_t)lo) : ((((int64_t)v - (int64_t)lo) % (int64_t)n) + (int64_t)lo));
}

/* Smooth, line 26 */
struct s3 {
    int16_t v4; /* Inport "x" */
    int16_t v5; /* UnitDelay "Last" */
    int32_t v6; /* Sum "Both" */
    int16_t v7; /* Gain "Half" */
    int16_t v8; /* ZeroOrderHold "Fourth" */
    int16_t v9; /* Outport "mean" */
    int16_t v10; /* Outport "slow" */
    int16_t v11; /* Outport "last" */
    int16_t m5; /* memory of UnitDelay "Last" */
    uint8_t k1; /* group 1 has run */
};

/* the model */
struct top {
    int16_t v0; /* Inport "Wanted" */
    int16_t v1; /* Inport "Seen" */
    int16_t v2; /* Sum "Error" */
    uint8_t v12; /* RelationalOperator "Growing" */
    int16_t v13; /* Outport "Mean" */
    int16_t v14; /* Outport "Slow" */
    uint8_t v15; /* Outport "Grows" */
    struct s3 s3; /* SubSystem "Smooth" */
};

struct root {
    int32_t now; /* tick of the cycle */
    int16_t y1; /* output 1 */
    int16_t y2; /* output 2 */
    uint8_t y3; /* output 3 */
    struct top top; /* the model */
};

static void s3_g1(struct s3 *s, int32_t now) {
    if ((int64_t)s->k1 == INT64_C(0)) {
        s->k1 = (uint8_t)INT64_C(1); /* group 1 has run */
        s->v5 = (int16_t)(int64_t)s->m5; /* UnitDelay "Last" */
    }
}

/* "mean", "slow" from "x" */
void s3_out1(struct s3 *s, int32_t now, int16_t u1) {
    s3_g1(s, (int32_t)(int64_t)now);
    s->v4 = (int16_t)(int64_t)u1; /* Inport "x" */
    s->v6 = (int32_t)((int64_t)s->v4 + (int64_t)s->v5); /* Sum "Both" */
    /* Gain "Half" */
    s->v7 = (int16_t)wrap(round_floor((int64_t)s->v6, INT64_C(2)), (-INT64_C(32768)), INT64_C(65536));
    if (((int64_t)now % INT64_C(4)) == INT64_C(0)) {
        s->v8 = (int16_t)(int64_t)s->v7; /* ZeroOrderHold "Fourth" */
    }
    s->v9 = (int16_t)(int64_t)s->v7; /* Outport "mean" */
    if (((int64_t)now % INT64_C(4)) == INT64_C(0)) {
        s->v10 = (int16_t)(int64_t)s->v8; /* Outport "slow" */
    }
}

/* "last" */
void s3_out2(struct s3 *s, int32_t now) {
    s3_g1(s, (int32_t)(int64_t)now);
    s->v11 = (int16_t)(int64_t)s->v5; /* Outport "last" */
}

void s3_update(struct s3 *s, int32_t now, int16_t u1) {
    s->m5 = (int16_t)(int64_t)s->v4; /* memory of UnitDelay "Last" */
    s->k1 = (uint8_t)INT64_C(0); /* group 1 has run */
}

void s3_start(struct s3 *s) {
    s->v4 = (int16_t)INT64_C(0); /* Inport "x" */
    s->v5 = (int16_t)INT64_C(0); /* UnitDelay "Last" */
    s->v6 = (int32_t)INT64_C(0); /* Sum "Both" */
    s->v7 = (int16_t)INT64_C(0); /* Gain "Half" */
    s->v8 = (int16_t)INT64_C(0); /* ZeroOrderHold "Fourth" */
    s->v9 = (int16_t)INT64_C(0); /* Outport "mean" */
    s->v10 = (int16_t)INT64_C(0); /* Outport "slow" */
    s->v11 = (int16_t)INT64_C(0); /* Outport "last" */
    s->m5 = (int16_t)INT64_C(0); /* memory of UnitDelay "Last" */
    s->k1 = (uint8_t)INT64_C(0); /* group 1 has run */
}

void s3_reset(struct s3 *s) {
    s->m5 = (int16_t)INT64_C(0); /* memory of UnitDelay "Last" */
}

/* "Mean", "Slow", "Grows" from "Wanted", "Seen" */
void top_out1(struct top *s, int32_t now, int16_t u1, int16_t u2) {
    s->v0 = (int16_t)(int64_t)u1; /* Inport "Wanted" */
    s->v1 = (int16_t)(int64_t)u2; /* Inport "Seen" */
    /* Sum "Error" */
    s->v2 = (int16_t)clamp(((int64_t)s->v0 + (-(int64_t)s->v1)), (-INT64_C(32768)), INT64_C(32767));
    s3_out1(&s->s3, (int32_t)(int64_t)now, (int16_t)(int64_t)s->v2); /* SubSystem "Smooth" */
    s->v13 = (int16_t)(int64_t)s->s3.v9; /* Outport "Mean" */
    if (((int64_t)now % INT64_C(4)) == INT64_C(0)) {
        s->v14 = (int16_t)(int64_t)s->s3.v10; /* Outport "Slow" */
    }
    s3_out2(&s->s3, (int32_t)(int64_t)now); /* SubSystem "Smooth" */
    /* RelationalOperator "Growing" */
    s->v12 = (uint8_t)(((int64_t)s->s3.v9 > (int64_t)s->s3.v11) ? INT64_C(1) : INT64_C(0));
    s->v15 = (uint8_t)(int64_t)s->v12; /* Outport "Grows" */
}

void top_update(struct top *s, int32_t now, int16_t u1, int16_t u2) {
    s3_update(&s->s3, (int32_t)(int64_t)now, (int16_t)(int64_t)s->v2); /* SubSystem "Smooth" */
}

void top_start(struct top *s) {
    s->v0 = (int16_t)INT64_C(0); /* Inport "Wanted" */
    s->v1 = (int16_t)INT64_C(0); /* Inport "Seen" */
    s->v2 = (int16_t)INT64_C(0); /* Sum "Error" */
    s->v12 = (uint8_t)INT64_C(0); /* RelationalOperator "Growing" */
    s->v13 = (int16_t)INT64_C(0); /* Outport "Mean" */
    s->v14 = (int16_t)INT64_C(0); /* Outport "Slow" */
    s->v15 = (uint8_t)INT64_C(0); /* Outport "Grows" */
    s3_start(&s->s3); /* SubSystem "Smooth" */
}

void top_reset(struct top *s) {
    s3_reset(&s->s3); /* SubSystem "Smooth" */
}

void root_start(struct root *s) {
    top_start(&s->top); /* the model */
    s->y1 = (int16_t)(int64_t)s->top.v13; /* output 1 */
    s->y2 = (int16_t)(int64_t)s->top.v14; /* output 2 */
    s->y3 = (uint8_t)(int64_t)s->top.v15; /* output 3 */
    s->now = (int32_t)INT64_C(0); /* tick of the cycle */
}

void root_step(struct root *s, int16_t u1, int16_t u2) {
    /* the model */
    top_out1(&s->top, (int32_t)(int64_t)s->now, (int16_t)(int64_t)u1, (int16_t)(int64_t)u2);
    /* the model */
    top_update(&s->top, (int32_t)(int64_t)s->now, (int16_t)(int64_t)u1, (int16_t)(int64_t)u2);
    s->y1 = (int16_t)(int64_t)s->top.v13; /* output 1 */
    s->y2 = (int16_t)(int64_t)s->top.v14; /* output 2 */
    s->y3 = (uint8_t)(int64_t)s->top.v15; /* output 3 */
    s->now = (int32_t)(((int64_t)s->now + INT64_C(1)) % INT64_C(4)); /* tick of the cycle */
}
