#include <stdint.h>

static int64_t clamp(int64_t v, int64_t lo, int64_t hi) {
    return (((int64_t)v < (int64_t)lo) ? (int64_t)lo : (((int64_t)v > (int64_t)hi) ? (int64_t)hi : (int64_t)v));
}

/* Trip, line 24 */
struct s2 {
    uint16_t v3; /* Inport "Step" */
    uint32_t v5; /* UnitDelay "So far" */
    uint32_t v6; /* Sum "Distance" */
    uint32_t v7; /* Outport "Last trip" */
    uint32_t v8; /* Outport "This trip" */
    uint32_t m5; /* memory of UnitDelay "So far" */
};

/* the model */
struct top {
    uint16_t v0; /* Inport "Metres" */
    uint8_t v1; /* Inport "Ignition" */
    uint32_t v9; /* Outport "Display" */
    uint32_t v10; /* Outport "Live" */
    struct s2 s2; /* SubSystem "Trip" */
};

struct root {
    int32_t now; /* tick of the cycle */
    uint32_t y1; /* output 1 */
    uint32_t y2; /* output 2 */
    struct top top; /* the model */
};

/* "Last trip", "This trip" from "Step" */
void s2_out1(struct s2 *s, int32_t now, uint16_t u1, uint8_t ctl) {
    if ((int64_t)ctl > INT64_C(0)) {
        s->v3 = (uint16_t)(int64_t)u1; /* Inport "Step" */
        s->v5 = (uint32_t)(int64_t)s->m5; /* UnitDelay "So far" */
        /* Sum "Distance" */
        s->v6 = (uint32_t)clamp(((int64_t)s->v5 + (int64_t)s->v3), INT64_C(0), INT64_C(4294967295));
        s->v7 = (uint32_t)(int64_t)s->v6; /* Outport "Last trip" */
        s->v8 = (uint32_t)(int64_t)s->v6; /* Outport "This trip" */
    } else {
        s->v8 = (uint32_t)INT64_C(0); /* Outport "This trip" */
    }
}

void s2_update(struct s2 *s, int32_t now, uint16_t u1, uint8_t ctl) {
    if ((int64_t)ctl > INT64_C(0)) {
        s->m5 = (uint32_t)(int64_t)s->v6; /* memory of UnitDelay "So far" */
    } else {
        s->m5 = (uint32_t)INT64_C(0); /* memory of UnitDelay "So far" */
    }
}

void s2_start(struct s2 *s) {
    s->v3 = (uint16_t)INT64_C(0); /* Inport "Step" */
    s->v5 = (uint32_t)INT64_C(0); /* UnitDelay "So far" */
    s->v6 = (uint32_t)INT64_C(0); /* Sum "Distance" */
    s->v7 = (uint32_t)INT64_C(0); /* Outport "Last trip" */
    s->v8 = (uint32_t)INT64_C(0); /* Outport "This trip" */
    s->m5 = (uint32_t)INT64_C(0); /* memory of UnitDelay "So far" */
}

void s2_reset(struct s2 *s) {
    s->m5 = (uint32_t)INT64_C(0); /* memory of UnitDelay "So far" */
}

/* "Display", "Live" from "Metres", "Ignition" */
void top_out1(struct top *s, int32_t now, uint16_t u1, uint8_t u2) {
    s->v0 = (uint16_t)(int64_t)u1; /* Inport "Metres" */
    s->v1 = (uint8_t)(int64_t)u2; /* Inport "Ignition" */
    /* SubSystem "Trip" */
    s2_out1(&s->s2, (int32_t)(int64_t)now, (uint16_t)(int64_t)s->v0, (uint8_t)(int64_t)s->v1);
    s->v9 = (uint32_t)(int64_t)s->s2.v7; /* Outport "Display" */
    s->v10 = (uint32_t)(int64_t)s->s2.v8; /* Outport "Live" */
}

void top_update(struct top *s, int32_t now, uint16_t u1, uint8_t u2) {
    /* SubSystem "Trip" */
    s2_update(&s->s2, (int32_t)(int64_t)now, (uint16_t)(int64_t)s->v0, (uint8_t)(int64_t)s->v1);
}

void top_start(struct top *s) {
    s->v0 = (uint16_t)INT64_C(0); /* Inport "Metres" */
    s->v1 = (uint8_t)INT64_C(0); /* Inport "Ignition" */
    s->v9 = (uint32_t)INT64_C(0); /* Outport "Display" */
    s->v10 = (uint32_t)INT64_C(0); /* Outport "Live" */
    s2_start(&s->s2); /* SubSystem "Trip" */
}

void top_reset(struct top *s) {
    s2_reset(&s->s2); /* SubSystem "Trip" */
}

void root_start(struct root *s) {
    top_start(&s->top); /* the model */
    s->y1 = (uint32_t)(int64_t)s->top.v9; /* output 1 */
    s->y2 = (uint32_t)(int64_t)s->top.v10; /* output 2 */
    s->now = (int32_t)INT64_C(0); /* tick of the cycle */
}

void root_step(struct root *s, uint16_t u1, uint8_t u2) {
    /* the model */
    top_out1(&s->top, (int32_t)(int64_t)s->now, (uint16_t)(int64_t)u1, (uint8_t)(int64_t)u2);
    /* the model */
    top_update(&s->top, (int32_t)(int64_t)s->now, (uint16_t)(int64_t)u1, (uint8_t)(int64_t)u2);
    s->y1 = (uint32_t)(int64_t)s->top.v9; /* output 1 */
    s->y2 = (uint32_t)(int64_t)s->top.v10; /* output 2 */
    s->now = (int32_t)INT64_C(0); /* tick of the cycle */
}
