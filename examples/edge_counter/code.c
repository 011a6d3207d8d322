#include <stdint.h>

static int64_t wrap(int64_t v, int64_t lo, int64_t n) {
    return (((((int64_t)v - (int64_t)lo) % (int64_t)n) < INT64_C(0)) ? (((((int64_t)v - (int64_t)lo) % (int64_t)n) + (int64_t)n) + (int64_t)lo) : ((((int64_t)v - (int64_t)lo) % (int64_t)n) + (int64_t)lo));
}

/* Note release, line 119 */
struct s11 {
    uint16_t v12; /* Inport "Time" */
    uint16_t v14; /* Outport "At" */
    int8_t w; /* what the trigger remembers */
};

/* Count presses, line 46 */
struct s5 {
    uint16_t v7; /* Constant "One" */
    uint16_t v8; /* UnitDelay "Last count" */
    uint16_t v9; /* Sum "Next count" */
    uint16_t v10; /* Outport "Count" */
    uint16_t m8; /* memory of UnitDelay "Last count" */
    int8_t w; /* what the trigger remembers */
};

/* the model */
struct top {
    uint8_t v0; /* Inport "Button" */
    uint16_t v1; /* Inport "Time" */
    uint8_t v2; /* UnitDelay "Before" */
    uint8_t v3; /* Logic "Was up" */
    uint8_t v4; /* Logic "Is pressed" */
    uint8_t v15; /* Outport "Pressed now" */
    uint16_t v16; /* Outport "Presses" */
    uint16_t v17; /* Outport "Released at" */
    uint8_t m2; /* memory of UnitDelay "Before" */
    struct s5 s5; /* SubSystem "Count presses" */
    struct s11 s11; /* SubSystem "Note release" */
    uint8_t k1; /* group 1 has run */
};

struct root {
    int32_t now; /* tick of the cycle */
    uint8_t y1; /* output 1 */
    uint16_t y2; /* output 2 */
    uint16_t y3; /* output 3 */
    struct top top; /* the model */
};

/* "At" from "Time" */
void s11_out1(struct s11 *s, int32_t now, uint16_t u1, uint8_t ctl) {
    if (((int64_t)s->w == INT64_C(2)) && (!((int64_t)ctl > INT64_C(0)))) {
        s->v12 = (uint16_t)(int64_t)u1; /* Inport "Time" */
        s->v14 = (uint16_t)(int64_t)s->v12; /* Outport "At" */
    }
}

void s11_update(struct s11 *s, int32_t now, uint16_t u1, uint8_t ctl) {
    /* what the trigger remembers */
    s->w = (int8_t)(((int64_t)ctl > INT64_C(0)) ? INT64_C(2) : INT64_C(1));
}

void s11_start(struct s11 *s) {
    s->v12 = (uint16_t)INT64_C(0); /* Inport "Time" */
    s->v14 = (uint16_t)INT64_C(0); /* Outport "At" */
    s->w = (int8_t)INT64_C(0); /* what the trigger remembers */
}

void s11_reset(struct s11 *s) {
    s->w = (int8_t)INT64_C(0); /* what the trigger remembers */
}

/* "Count" */
void s5_out1(struct s5 *s, int32_t now, uint8_t ctl) {
    if (((int64_t)s->w == INT64_C(1)) && ((int64_t)ctl > INT64_C(0))) {
        s->v7 = (uint16_t)INT64_C(1); /* Constant "One" */
        s->v8 = (uint16_t)(int64_t)s->m8; /* UnitDelay "Last count" */
        /* Sum "Next count" */
        s->v9 = (uint16_t)wrap(((int64_t)s->v8 + (int64_t)s->v7), INT64_C(0), INT64_C(65536));
        s->v10 = (uint16_t)(int64_t)s->v9; /* Outport "Count" */
    }
}

void s5_update(struct s5 *s, int32_t now, uint8_t ctl) {
    if (((int64_t)s->w == INT64_C(1)) && ((int64_t)ctl > INT64_C(0))) {
        s->m8 = (uint16_t)(int64_t)s->v9; /* memory of UnitDelay "Last count" */
    }
    /* what the trigger remembers */
    s->w = (int8_t)(((int64_t)ctl > INT64_C(0)) ? INT64_C(2) : INT64_C(1));
}

void s5_start(struct s5 *s) {
    s->v7 = (uint16_t)INT64_C(0); /* Constant "One" */
    s->v8 = (uint16_t)INT64_C(0); /* UnitDelay "Last count" */
    s->v9 = (uint16_t)INT64_C(0); /* Sum "Next count" */
    s->v10 = (uint16_t)INT64_C(0); /* Outport "Count" */
    s->m8 = (uint16_t)INT64_C(0); /* memory of UnitDelay "Last count" */
    s->w = (int8_t)INT64_C(0); /* what the trigger remembers */
}

void s5_reset(struct s5 *s) {
    s->m8 = (uint16_t)INT64_C(0); /* memory of UnitDelay "Last count" */
    s->w = (int8_t)INT64_C(0); /* what the trigger remembers */
}

static void top_g1(struct top *s, int32_t now, uint8_t u1) {
    if ((int64_t)s->k1 == INT64_C(0)) {
        s->k1 = (uint8_t)INT64_C(1); /* group 1 has run */
        s->v0 = (uint8_t)(int64_t)u1; /* Inport "Button" */
    }
}

/* "Pressed now", "Presses" from "Button" */
void top_out1(struct top *s, int32_t now, uint8_t u1) {
    top_g1(s, (int32_t)(int64_t)now, (uint8_t)(int64_t)u1);
    s->v2 = (uint8_t)(int64_t)s->m2; /* UnitDelay "Before" */
    /* Logic "Was up" */
    s->v3 = (uint8_t)((!((int64_t)s->v2 != INT64_C(0))) ? INT64_C(1) : INT64_C(0));
    /* Logic "Is pressed" */
    s->v4 = (uint8_t)((((int64_t)s->v0 != INT64_C(0)) && ((int64_t)s->v3 != INT64_C(0))) ? INT64_C(1) : INT64_C(0));
    s->v15 = (uint8_t)(int64_t)s->v4; /* Outport "Pressed now" */
    s5_out1(&s->s5, (int32_t)(int64_t)now, (uint8_t)(int64_t)s->v0); /* SubSystem "Count presses" */
    s->v16 = (uint16_t)(int64_t)s->s5.v10; /* Outport "Presses" */
}

/* "Released at" from "Button", "Time" */
void top_out2(struct top *s, int32_t now, uint8_t u1, uint16_t u2) {
    top_g1(s, (int32_t)(int64_t)now, (uint8_t)(int64_t)u1);
    s->v1 = (uint16_t)(int64_t)u2; /* Inport "Time" */
    /* SubSystem "Note release" */
    s11_out1(&s->s11, (int32_t)(int64_t)now, (uint16_t)(int64_t)s->v1, (uint8_t)(int64_t)s->v0);
    s->v17 = (uint16_t)(int64_t)s->s11.v14; /* Outport "Released at" */
}

void top_update(struct top *s, int32_t now, uint8_t u1, uint16_t u2) {
    s->m2 = (uint8_t)(int64_t)s->v0; /* memory of UnitDelay "Before" */
    /* SubSystem "Count presses" */
    s5_update(&s->s5, (int32_t)(int64_t)now, (uint8_t)(int64_t)s->v0);
    /* SubSystem "Note release" */
    s11_update(&s->s11, (int32_t)(int64_t)now, (uint16_t)(int64_t)s->v1, (uint8_t)(int64_t)s->v0);
    s->k1 = (uint8_t)INT64_C(0); /* group 1 has run */
}

void top_start(struct top *s) {
    s->v0 = (uint8_t)INT64_C(0); /* Inport "Button" */
    s->v1 = (uint16_t)INT64_C(0); /* Inport "Time" */
    s->v2 = (uint8_t)INT64_C(0); /* UnitDelay "Before" */
    s->v3 = (uint8_t)INT64_C(0); /* Logic "Was up" */
    s->v4 = (uint8_t)INT64_C(0); /* Logic "Is pressed" */
    s->v15 = (uint8_t)INT64_C(0); /* Outport "Pressed now" */
    s->v16 = (uint16_t)INT64_C(0); /* Outport "Presses" */
    s->v17 = (uint16_t)INT64_C(0); /* Outport "Released at" */
    s->m2 = (uint8_t)INT64_C(0); /* memory of UnitDelay "Before" */
    s5_start(&s->s5); /* SubSystem "Count presses" */
    s11_start(&s->s11); /* SubSystem "Note release" */
    s->k1 = (uint8_t)INT64_C(0); /* group 1 has run */
}

void top_reset(struct top *s) {
    s->m2 = (uint8_t)INT64_C(0); /* memory of UnitDelay "Before" */
    s5_reset(&s->s5); /* SubSystem "Count presses" */
    s11_reset(&s->s11); /* SubSystem "Note release" */
}

void root_start(struct root *s) {
    top_start(&s->top); /* the model */
    s->y1 = (uint8_t)(int64_t)s->top.v15; /* output 1 */
    s->y2 = (uint16_t)(int64_t)s->top.v16; /* output 2 */
    s->y3 = (uint16_t)(int64_t)s->top.v17; /* output 3 */
    s->now = (int32_t)INT64_C(0); /* tick of the cycle */
}

void root_step(struct root *s, uint8_t u1, uint16_t u2) {
    top_out1(&s->top, (int32_t)(int64_t)s->now, (uint8_t)(int64_t)u1); /* the model */
    /* the model */
    top_out2(&s->top, (int32_t)(int64_t)s->now, (uint8_t)(int64_t)u1, (uint16_t)(int64_t)u2);
    /* the model */
    top_update(&s->top, (int32_t)(int64_t)s->now, (uint8_t)(int64_t)u1, (uint16_t)(int64_t)u2);
    s->y1 = (uint8_t)(int64_t)s->top.v15; /* output 1 */
    s->y2 = (uint16_t)(int64_t)s->top.v16; /* output 2 */
    s->y3 = (uint16_t)(int64_t)s->top.v17; /* output 3 */
    s->now = (int32_t)INT64_C(0); /* tick of the cycle */
}
