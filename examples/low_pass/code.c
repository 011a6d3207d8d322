#include <stdint.h>

static int64_t round_nearest(int64_t v, int64_t d) {
    return ((((int64_t)v % (int64_t)d) >= ((int64_t)d / INT64_C(2))) ? (((int64_t)v / (int64_t)d) + INT64_C(1)) : ((((int64_t)v % (int64_t)d) < (-((int64_t)d / INT64_C(2)))) ? (((int64_t)v / (int64_t)d) - INT64_C(1)) : ((int64_t)v / (int64_t)d)));
}

static int64_t clamp(int64_t v, int64_t lo, int64_t hi) {
    return (((int64_t)v < (int64_t)lo) ? (int64_t)lo : (((int64_t)v > (int64_t)hi) ? (int64_t)hi : (int64_t)v));
}

static int64_t wrap(int64_t v, int64_t lo, int64_t n) {
    return (((((int64_t)v - (int64_t)lo) % (int64_t)n) < INT64_C(0)) ? (((((int64_t)v - (int64_t)lo) % (int64_t)n) + (int64_t)n) + (int64_t)lo) : ((((int64_t)v - (int64_t)lo) % (int64_t)n) + (int64_t)lo));
}

/* Second stage, line 132 */
struct s9 {
    int16_t v10; /* Inport "x" */
    int32_t v11; /* UnitDelay "State" */
    int32_t v12; /* Sum "Error" */
    int32_t v13; /* Gain "Coefficient" */
    int32_t v14; /* Sum "Next" */
    int16_t v15; /* DataTypeConversion "To output" */
    int16_t v16; /* Outport "y" */
    int32_t m11; /* memory of UnitDelay "State" */
};

/* First stage, line 16 */
struct s1 {
    int16_t v2; /* Inport "x" */
    int32_t v3; /* UnitDelay "State" */
    int32_t v4; /* Sum "Error" */
    int32_t v5; /* Gain "Coefficient" */
    int32_t v6; /* Sum "Next" */
    int16_t v7; /* DataTypeConversion "To output" */
    int16_t v8; /* Outport "y" */
    int32_t m3; /* memory of UnitDelay "State" */
};

/* the model */
struct top {
    int16_t v0; /* Inport "Raw" */
    int16_t v17; /* Outport "Once" */
    int16_t v18; /* Outport "Twice" */
    struct s1 s1; /* SubSystem "First stage" */
    struct s9 s9; /* SubSystem "Second stage" */
};

struct root {
    int32_t now; /* tick of the cycle */
    int16_t y1; /* output 1 */
    int16_t y2; /* output 2 */
    struct top top; /* the model */
};

/* "y" from "x" */
void s9_out1(struct s9 *s, int32_t now, int16_t u1) {
    s->v10 = (int16_t)(int64_t)u1; /* Inport "x" */
    s->v11 = (int32_t)(int64_t)s->m11; /* UnitDelay "State" */
    /* Sum "Error" */
    s->v12 = (int32_t)wrap((((int64_t)s->v10 * INT64_C(256)) + (-(int64_t)s->v11)), (-INT64_C(2147483648)), INT64_C(4294967296));
    /* Gain "Coefficient" */
    s->v13 = (int32_t)round_nearest(((int64_t)s->v12 * INT64_C(13107)), INT64_C(65536));
    /* Sum "Next" */
    s->v14 = (int32_t)clamp(((int64_t)s->v11 + (int64_t)s->v13), (-INT64_C(2147483648)), INT64_C(2147483647));
    /* DataTypeConversion "To output" */
    s->v15 = (int16_t)clamp(round_nearest((int64_t)s->v14, INT64_C(256)), (-INT64_C(32768)), INT64_C(32767));
    s->v16 = (int16_t)(int64_t)s->v15; /* Outport "y" */
}

void s9_update(struct s9 *s, int32_t now, int16_t u1) {
    s->m11 = (int32_t)(int64_t)s->v14; /* memory of UnitDelay "State" */
}

void s9_start(struct s9 *s) {
    s->v10 = (int16_t)INT64_C(0); /* Inport "x" */
    s->v11 = (int32_t)INT64_C(0); /* UnitDelay "State" */
    s->v12 = (int32_t)INT64_C(0); /* Sum "Error" */
    s->v13 = (int32_t)INT64_C(0); /* Gain "Coefficient" */
    s->v14 = (int32_t)INT64_C(0); /* Sum "Next" */
    s->v15 = (int16_t)INT64_C(0); /* DataTypeConversion "To output" */
    s->v16 = (int16_t)INT64_C(0); /* Outport "y" */
    s->m11 = (int32_t)INT64_C(0); /* memory of UnitDelay "State" */
}

void s9_reset(struct s9 *s) {
    s->m11 = (int32_t)INT64_C(0); /* memory of UnitDelay "State" */
}

/* "y" from "x" */
void s1_out1(struct s1 *s, int32_t now, int16_t u1) {
    s->v2 = (int16_t)(int64_t)u1; /* Inport "x" */
    s->v3 = (int32_t)(int64_t)s->m3; /* UnitDelay "State" */
    /* Sum "Error" */
    s->v4 = (int32_t)wrap((((int64_t)s->v2 * INT64_C(256)) + (-(int64_t)s->v3)), (-INT64_C(2147483648)), INT64_C(4294967296));
    /* Gain "Coefficient" */
    s->v5 = (int32_t)round_nearest(((int64_t)s->v4 * INT64_C(13107)), INT64_C(65536));
    /* Sum "Next" */
    s->v6 = (int32_t)clamp(((int64_t)s->v3 + (int64_t)s->v5), (-INT64_C(2147483648)), INT64_C(2147483647));
    /* DataTypeConversion "To output" */
    s->v7 = (int16_t)clamp(round_nearest((int64_t)s->v6, INT64_C(256)), (-INT64_C(32768)), INT64_C(32767));
    s->v8 = (int16_t)(int64_t)s->v7; /* Outport "y" */
}

void s1_update(struct s1 *s, int32_t now, int16_t u1) {
    s->m3 = (int32_t)(int64_t)s->v6; /* memory of UnitDelay "State" */
}

void s1_start(struct s1 *s) {
    s->v2 = (int16_t)INT64_C(0); /* Inport "x" */
    s->v3 = (int32_t)INT64_C(0); /* UnitDelay "State" */
    s->v4 = (int32_t)INT64_C(0); /* Sum "Error" */
    s->v5 = (int32_t)INT64_C(0); /* Gain "Coefficient" */
    s->v6 = (int32_t)INT64_C(0); /* Sum "Next" */
    s->v7 = (int16_t)INT64_C(0); /* DataTypeConversion "To output" */
    s->v8 = (int16_t)INT64_C(0); /* Outport "y" */
    s->m3 = (int32_t)INT64_C(0); /* memory of UnitDelay "State" */
}

void s1_reset(struct s1 *s) {
    s->m3 = (int32_t)INT64_C(0); /* memory of UnitDelay "State" */
}

/* "Once", "Twice" from "Raw" */
void top_out1(struct top *s, int32_t now, int16_t u1) {
    s->v0 = (int16_t)(int64_t)u1; /* Inport "Raw" */
    s1_out1(&s->s1, (int32_t)(int64_t)now, (int16_t)(int64_t)s->v0); /* SubSystem "First stage" */
    s->v17 = (int16_t)(int64_t)s->s1.v8; /* Outport "Once" */
    /* SubSystem "Second stage" */
    s9_out1(&s->s9, (int32_t)(int64_t)now, (int16_t)(int64_t)s->s1.v8);
    s->v18 = (int16_t)(int64_t)s->s9.v16; /* Outport "Twice" */
}

void top_update(struct top *s, int32_t now, int16_t u1) {
    s1_update(&s->s1, (int32_t)(int64_t)now, (int16_t)(int64_t)s->v0); /* SubSystem "First stage" */
    /* SubSystem "Second stage" */
    s9_update(&s->s9, (int32_t)(int64_t)now, (int16_t)(int64_t)s->s1.v8);
}

void top_start(struct top *s) {
    s->v0 = (int16_t)INT64_C(0); /* Inport "Raw" */
    s->v17 = (int16_t)INT64_C(0); /* Outport "Once" */
    s->v18 = (int16_t)INT64_C(0); /* Outport "Twice" */
    s1_start(&s->s1); /* SubSystem "First stage" */
    s9_start(&s->s9); /* SubSystem "Second stage" */
}

void top_reset(struct top *s) {
    s1_reset(&s->s1); /* SubSystem "First stage" */
    s9_reset(&s->s9); /* SubSystem "Second stage" */
}

void root_start(struct root *s) {
    top_start(&s->top); /* the model */
    s->y1 = (int16_t)(int64_t)s->top.v17; /* output 1 */
    s->y2 = (int16_t)(int64_t)s->top.v18; /* output 2 */
    s->now = (int32_t)INT64_C(0); /* tick of the cycle */
}

void root_step(struct root *s, int16_t u1) {
    top_out1(&s->top, (int32_t)(int64_t)s->now, (int16_t)(int64_t)u1); /* the model */
    top_update(&s->top, (int32_t)(int64_t)s->now, (int16_t)(int64_t)u1); /* the model */
    s->y1 = (int16_t)(int64_t)s->top.v17; /* output 1 */
    s->y2 = (int16_t)(int64_t)s->top.v18; /* output 2 */
    s->now = (int32_t)INT64_C(0); /* tick of the cycle */
}
