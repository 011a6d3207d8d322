#include <stdint.h>

static int64_t round_floor(int64_t v, int64_t d) {
    return ((((int64_t)v % (int64_t)d) < INT64_C(0)) ? (((int64_t)v / (int64_t)d) - INT64_C(1)) : ((int64_t)v / (int64_t)d));
}

static int64_t wrap(int64_t v, int64_t lo, int64_t n) {
    return (((((int64_t)v - (int64_t)lo) % (int64_t)n) < INT64_C(0)) ? (((((int64_t)v - (int64_t)lo) % (int64_t)n) + (int64_t)n) + (int64_t)lo) : ((((int64_t)v - (int64_t)lo) % (int64_t)n) + (int64_t)lo));
}

/* Dual smoother, line 16 */
struct s1 {
    int16_t v2; /* Inport "A in" */
    int16_t v3; /* Inport "B in" */
    int16_t v4; /* UnitDelay "A last" */
    int32_t v5; /* Sum "A sum" */
    int16_t v6; /* Gain "A half" */
    int16_t v7; /* UnitDelay "B last" */
    int32_t v8; /* Sum "B sum" */
    int16_t v9; /* Gain "B half" */
    int16_t v10; /* Outport "A out" */
    int16_t v11; /* Outport "B out" */
    int16_t m4; /* memory of UnitDelay "A last" */
    int16_t m7; /* memory of UnitDelay "B last" */
};

/* the model */
struct top {
    int16_t v0; /* Inport "Raw" */
    int16_t v12; /* Outport "Once" */
    int16_t v13; /* Outport "Twice" */
    struct s1 s1; /* SubSystem "Dual smoother" */
};

struct root {
    int32_t now; /* tick of the cycle */
    int16_t y1; /* output 1 */
    int16_t y2; /* output 2 */
    struct top top; /* the model */
};

/* "A out" from "A in" */
void s1_out1(struct s1 *s, int32_t now, int16_t u1) {
    s->v2 = (int16_t)(int64_t)u1; /* Inport "A in" */
    s->v4 = (int16_t)(int64_t)s->m4; /* UnitDelay "A last" */
    s->v5 = (int32_t)((int64_t)s->v2 + (int64_t)s->v4); /* Sum "A sum" */
    /* Gain "A half" */
    s->v6 = (int16_t)wrap(round_floor((int64_t)s->v5, INT64_C(2)), (-INT64_C(32768)), INT64_C(65536));
    s->v10 = (int16_t)(int64_t)s->v6; /* Outport "A out" */
}

/* "B out" from "B in" */
void s1_out2(struct s1 *s, int32_t now, int16_t u2) {
    s->v3 = (int16_t)(int64_t)u2; /* Inport "B in" */
    s->v7 = (int16_t)(int64_t)s->m7; /* UnitDelay "B last" */
    s->v8 = (int32_t)((int64_t)s->v3 + (int64_t)s->v7); /* Sum "B sum" */
    /* Gain "B half" */
    s->v9 = (int16_t)wrap(round_floor((int64_t)s->v8, INT64_C(2)), (-INT64_C(32768)), INT64_C(65536));
    s->v11 = (int16_t)(int64_t)s->v9; /* Outport "B out" */
}

void s1_update(struct s1 *s, int32_t now, int16_t u1, int16_t u2) {
    s->m4 = (int16_t)(int64_t)s->v2; /* memory of UnitDelay "A last" */
    s->m7 = (int16_t)(int64_t)s->v3; /* memory of UnitDelay "B last" */
}

void s1_start(struct s1 *s) {
    s->v2 = (int16_t)INT64_C(0); /* Inport "A in" */
    s->v3 = (int16_t)INT64_C(0); /* Inport "B in" */
    s->v4 = (int16_t)INT64_C(0); /* UnitDelay "A last" */
    s->v5 = (int32_t)INT64_C(0); /* Sum "A sum" */
    s->v6 = (int16_t)INT64_C(0); /* Gain "A half" */
    s->v7 = (int16_t)INT64_C(0); /* UnitDelay "B last" */
    s->v8 = (int32_t)INT64_C(0); /* Sum "B sum" */
    s->v9 = (int16_t)INT64_C(0); /* Gain "B half" */
    s->v10 = (int16_t)INT64_C(0); /* Outport "A out" */
    s->v11 = (int16_t)INT64_C(0); /* Outport "B out" */
    s->m4 = (int16_t)INT64_C(0); /* memory of UnitDelay "A last" */
    s->m7 = (int16_t)INT64_C(0); /* memory of UnitDelay "B last" */
}

void s1_reset(struct s1 *s) {
    s->m4 = (int16_t)INT64_C(0); /* memory of UnitDelay "A last" */
    s->m7 = (int16_t)INT64_C(0); /* memory of UnitDelay "B last" */
}

/* "Once", "Twice" from "Raw" */
void top_out1(struct top *s, int32_t now, int16_t u1) {
    s->v0 = (int16_t)(int64_t)u1; /* Inport "Raw" */
    s1_out1(&s->s1, (int32_t)(int64_t)now, (int16_t)(int64_t)s->v0); /* SubSystem "Dual smoother" */
    s->v12 = (int16_t)(int64_t)s->s1.v10; /* Outport "Once" */
    /* SubSystem "Dual smoother" */
    s1_out2(&s->s1, (int32_t)(int64_t)now, (int16_t)(int64_t)s->s1.v10);
    s->v13 = (int16_t)(int64_t)s->s1.v11; /* Outport "Twice" */
}

void top_update(struct top *s, int32_t now, int16_t u1) {
    /* SubSystem "Dual smoother" */
    s1_update(&s->s1, (int32_t)(int64_t)now, (int16_t)(int64_t)s->v0, (int16_t)(int64_t)s->s1.v10);
}

void top_start(struct top *s) {
    s->v0 = (int16_t)INT64_C(0); /* Inport "Raw" */
    s->v12 = (int16_t)INT64_C(0); /* Outport "Once" */
    s->v13 = (int16_t)INT64_C(0); /* Outport "Twice" */
    s1_start(&s->s1); /* SubSystem "Dual smoother" */
}

void top_reset(struct top *s) {
    s1_reset(&s->s1); /* SubSystem "Dual smoother" */
}

void root_start(struct root *s) {
    top_start(&s->top); /* the model */
    s->y1 = (int16_t)(int64_t)s->top.v12; /* output 1 */
    s->y2 = (int16_t)(int64_t)s->top.v13; /* output 2 */
    s->now = (int32_t)INT64_C(0); /* tick of the cycle */
}

void root_step(struct root *s, int16_t u1) {
    top_out1(&s->top, (int32_t)(int64_t)s->now, (int16_t)(int64_t)u1); /* the model */
    top_update(&s->top, (int32_t)(int64_t)s->now, (int16_t)(int64_t)u1); /* the model */
    s->y1 = (int16_t)(int64_t)s->top.v12; /* output 1 */
    s->y2 = (int16_t)(int64_t)s->top.v13; /* output 2 */
    s->now = (int32_t)INT64_C(0); /* tick of the cycle */
}
