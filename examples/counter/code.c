#include <stdint.h>

static int64_t wrap(int64_t v, int64_t lo, int64_t n) {
    return (((((int64_t)v - (int64_t)lo) % (int64_t)n) < INT64_C(0)) ? (((((int64_t)v - (int64_t)lo) % (int64_t)n) + (int64_t)n) + (int64_t)lo) : ((((int64_t)v - (int64_t)lo) % (int64_t)n) + (int64_t)lo));
}

/* the model */
struct top {
    uint8_t v0; /* Inport "Up" */
    uint8_t v1; /* UnitDelay "Last" */
    uint8_t v2; /* Sum "Next" */
    uint8_t v3; /* Constant "Nine" */
    uint8_t v4; /* RelationalOperator "Is past nine" */
    uint8_t v5; /* Constant "Zero" */
    uint8_t v6; /* Switch "Wrap" */
    uint8_t v7; /* Delay "Three ago" */
    uint8_t v8; /* Outport "Count" */
    uint8_t v9; /* Outport "Count before" */
    uint8_t m1; /* memory of UnitDelay "Last" */
    uint8_t m7[3]; /* memory of Delay "Three ago" */
    int32_t p7; /* oldest sample of Delay "Three ago" */
    int32_t n7; /* samples taken by Delay "Three ago" */
};

struct root {
    int32_t now; /* tick of the cycle */
    uint8_t y1; /* output 1 */
    uint8_t y2; /* output 2 */
    struct top top; /* the model */
};

/* "Count" from "Up" */
void top_out1(struct top *s, int32_t now, uint8_t u1) {
    s->v0 = (uint8_t)(int64_t)u1; /* Inport "Up" */
    s->v1 = (uint8_t)(int64_t)s->m1; /* UnitDelay "Last" */
    /* Sum "Next" */
    s->v2 = (uint8_t)wrap(((int64_t)s->v1 + (int64_t)s->v0), INT64_C(0), INT64_C(256));
    s->v3 = (uint8_t)INT64_C(9); /* Constant "Nine" */
    /* RelationalOperator "Is past nine" */
    s->v4 = (uint8_t)(((int64_t)s->v2 > (int64_t)s->v3) ? INT64_C(1) : INT64_C(0));
    s->v5 = (uint8_t)INT64_C(0); /* Constant "Zero" */
    /* Switch "Wrap" */
    s->v6 = (uint8_t)(((int64_t)s->v4 != INT64_C(0)) ? (int64_t)s->v5 : (int64_t)s->v2);
    s->v8 = (uint8_t)(int64_t)s->v6; /* Outport "Count" */
}

/* "Count before" */
void top_out2(struct top *s, int32_t now) {
    /* Delay "Three ago" */
    s->v7 = (uint8_t)(((int64_t)s->n7 < INT64_C(3)) ? INT64_C(0) : (int64_t)s->m7[(int64_t)s->p7]);
    s->v9 = (uint8_t)(int64_t)s->v7; /* Outport "Count before" */
}

void top_update(struct top *s, int32_t now, uint8_t u1) {
    s->m1 = (uint8_t)(int64_t)s->v6; /* memory of UnitDelay "Last" */
    s->m7[(int64_t)s->p7] = (uint8_t)(int64_t)s->v6; /* memory of Delay "Three ago" */
    /* samples taken by Delay "Three ago" */
    s->n7 = (int32_t)(((int64_t)s->n7 < INT64_C(3)) ? ((int64_t)s->n7 + INT64_C(1)) : (int64_t)s->n7);
    /* oldest sample of Delay "Three ago" */
    s->p7 = (int32_t)(((int64_t)s->p7 + INT64_C(1)) % INT64_C(3));
}

void top_start(struct top *s) {
    s->v0 = (uint8_t)INT64_C(0); /* Inport "Up" */
    s->v1 = (uint8_t)INT64_C(0); /* UnitDelay "Last" */
    s->v2 = (uint8_t)INT64_C(0); /* Sum "Next" */
    s->v3 = (uint8_t)INT64_C(0); /* Constant "Nine" */
    s->v4 = (uint8_t)INT64_C(0); /* RelationalOperator "Is past nine" */
    s->v5 = (uint8_t)INT64_C(0); /* Constant "Zero" */
    s->v6 = (uint8_t)INT64_C(0); /* Switch "Wrap" */
    s->v7 = (uint8_t)INT64_C(0); /* Delay "Three ago" */
    s->v8 = (uint8_t)INT64_C(0); /* Outport "Count" */
    s->v9 = (uint8_t)INT64_C(0); /* Outport "Count before" */
    s->m1 = (uint8_t)INT64_C(0); /* memory of UnitDelay "Last" */
    s->p7 = (int32_t)INT64_C(0); /* oldest sample of Delay "Three ago" */
    s->n7 = (int32_t)INT64_C(0); /* samples taken by Delay "Three ago" */
}

void top_reset(struct top *s) {
    s->m1 = (uint8_t)INT64_C(0); /* memory of UnitDelay "Last" */
    s->p7 = (int32_t)INT64_C(0); /* oldest sample of Delay "Three ago" */
    s->n7 = (int32_t)INT64_C(0); /* samples taken by Delay "Three ago" */
}

void root_start(struct root *s) {
    top_start(&s->top); /* the model */
    s->y1 = (uint8_t)(int64_t)s->top.v8; /* output 1 */
    s->y2 = (uint8_t)(int64_t)s->top.v9; /* output 2 */
    s->now = (int32_t)INT64_C(0); /* tick of the cycle */
}

void root_step(struct root *s, uint8_t u1) {
    top_out1(&s->top, (int32_t)(int64_t)s->now, (uint8_t)(int64_t)u1); /* the model */
    top_out2(&s->top, (int32_t)(int64_t)s->now); /* the model */
    top_update(&s->top, (int32_t)(int64_t)s->now, (uint8_t)(int64_t)u1); /* the model */
    s->y1 = (uint8_t)(int64_t)s->top.v8; /* output 1 */
    s->y2 = (uint8_t)(int64_t)s->top.v9; /* output 2 */
    s->now = (int32_t)INT64_C(0); /* tick of the cycle */
}
