#include <stdint.h>

static int64_t round_nearest(int64_t v, int64_t d) {
    return ((((int64_t)v % (int64_t)d) >= ((int64_t)d / INT64_C(2))) ? (((int64_t)v / (int64_t)d) + INT64_C(1)) : ((((int64_t)v % (int64_t)d) < (-((int64_t)d / INT64_C(2)))) ? (((int64_t)v / (int64_t)d) - INT64_C(1)) : ((int64_t)v / (int64_t)d)));
}

static int64_t clamp(int64_t v, int64_t lo, int64_t hi) {
    return (((int64_t)v < (int64_t)lo) ? (int64_t)lo : (((int64_t)v > (int64_t)hi) ? (int64_t)hi : (int64_t)v));
}

static int64_t wrap(int64_t v, int64_t lo, int64_t n) {
    return (((((int64_t)v - (int64_t)lo) % (int64_t)n) < INT64_C(0)) ? (((((int64_t)v - (int64_t)lo) % (int64_t)n) + (int64_t)n) + (int64_t)lo) : ((((int64_t)v - (int64_t)lo) % (int64_t)n) + (int64_t)lo));
}

/* Regulator/Limit, line 625 */
struct s52 {
    int32_t v53; /* Inport "Wanted" */
    int32_t v54; /* Constant "Full" */
    int32_t v55; /* Constant "Closed" */
    uint8_t v56; /* RelationalOperator "Is above" */
    uint8_t v57; /* RelationalOperator "Is below" */
    int32_t v58; /* Switch "At most full" */
    int32_t v59; /* Switch "At least closed" */
    int32_t v60; /* Outport "Limited" */
    uint8_t v61; /* Outport "Above" */
    uint8_t v62; /* Outport "Below" */
};

/* Regulator, line 552 */
struct s43 {
    int16_t v44; /* Inport "Target" */
    int16_t v45; /* Inport "Speed" */
    int16_t v47; /* Sum "Error" */
    int32_t v48; /* Gain "Kp" */
    int32_t v49; /* Gain "Ki" */
    int32_t v50; /* UnitDelay "Integral" */
    int32_t v51; /* Sum "Wanted" */
    int16_t v63; /* Constant "No error" */
    uint8_t v64; /* RelationalOperator "Too slow" */
    uint8_t v65; /* RelationalOperator "Too fast" */
    uint8_t v66; /* Logic "Winds up" */
    uint8_t v67; /* Logic "Winds down" */
    uint8_t v68; /* Logic "Winds" */
    int32_t v69; /* Sum "Integrated" */
    int32_t v70; /* Switch "Anti-windup" */
    uint16_t v71; /* DataTypeConversion "In percent" */
    int16_t v72; /* DataTypeConversion "Trim in percent" */
    uint16_t v73; /* Outport "Throttle" */
    int16_t v74; /* Outport "Trim" */
    int32_t m50; /* memory of UnitDelay "Integral" */
    struct s52 s52; /* SubSystem "Limit" */
    uint8_t k1; /* group 1 has run */
};

/* Mode, line 395 */
struct s31 {
    uint8_t v32; /* Inport "Set" */
    uint8_t v33; /* Inport "Resume" */
    uint8_t v34; /* Inport "Brake" */
    int16_t v35; /* Inport "Speed" */
    uint8_t v36; /* UnitDelay "Was engaged" */
    uint8_t v37; /* Logic "Stays or begins" */
    uint8_t v38; /* Logic "No brake" */
    int16_t v39; /* Constant "Least speed" */
    uint8_t v40; /* RelationalOperator "Fast enough" */
    uint8_t v41; /* Logic "May be" */
    uint8_t v42; /* Outport "Engaged" */
    uint8_t m36; /* memory of UnitDelay "Was engaged" */
};

/* Target memory, line 328 */
struct s24 {
    int16_t v25; /* Inport "Speed" */
    int16_t v27; /* Outport "Target" */
};

/* Right filter, line 187 */
struct s13 {
    int16_t v14; /* Inport "x" */
    int32_t v15; /* UnitDelay "State" */
    int32_t v16; /* Sum "Error" */
    int32_t v17; /* Gain "Coefficient" */
    int32_t v18; /* Sum "Next" */
    int16_t v19; /* DataTypeConversion "To output" */
    int16_t v20; /* Outport "y" */
    int32_t m15; /* memory of UnitDelay "State" */
};

/* Left filter, line 71 */
struct s5 {
    int16_t v6; /* Inport "x" */
    int32_t v7; /* UnitDelay "State" */
    int32_t v8; /* Sum "Error" */
    int32_t v9; /* Gain "Coefficient" */
    int32_t v10; /* Sum "Next" */
    int16_t v11; /* DataTypeConversion "To output" */
    int16_t v12; /* Outport "y" */
    int32_t m7; /* memory of UnitDelay "State" */
};

/* the model */
struct top {
    int16_t v0; /* Inport "Left wheel" */
    int16_t v1; /* Inport "Right wheel" */
    uint8_t v2; /* Inport "Set" */
    uint8_t v3; /* Inport "Resume" */
    uint8_t v4; /* Inport "Brake" */
    int32_t v21; /* Sum "Both" */
    int16_t v22; /* Gain "Mean" */
    int16_t v23; /* RateTransition "Speed to slow" */
    int16_t v28; /* RateTransition "Target to fast" */
    uint8_t v29; /* RateTransition "Set to fast" */
    uint8_t v30; /* RateTransition "Resume to fast" */
    uint16_t v75; /* Outport "Throttle" */
    int16_t v76; /* Outport "Trim" */
    int16_t v77; /* Outport "Target" */
    uint8_t v78; /* Outport "Engaged" */
    int16_t m28; /* memory of RateTransition "Target to fast" */
    uint8_t m29; /* memory of RateTransition "Set to fast" */
    uint8_t m30; /* memory of RateTransition "Resume to fast" */
    struct s5 s5; /* SubSystem "Left filter" */
    struct s13 s13; /* SubSystem "Right filter" */
    struct s24 s24; /* SubSystem "Target memory" */
    struct s31 s31; /* SubSystem "Mode" */
    struct s43 s43; /* SubSystem "Regulator" */
    uint8_t k1; /* group 1 has run */
};

struct root {
    int32_t now; /* tick of the cycle */
    uint16_t y1; /* output 1 */
    int16_t y2; /* output 2 */
    int16_t y3; /* output 3 */
    uint8_t y4; /* output 4 */
    struct top top; /* the model */
};

/* "Limited", "Above", "Below" from "Wanted" */
void s52_out1(struct s52 *s, int32_t now, int32_t u1) {
    s->v53 = (int32_t)(int64_t)u1; /* Inport "Wanted" */
    s->v54 = (int32_t)INT64_C(6553600); /* Constant "Full" */
    s->v55 = (int32_t)INT64_C(0); /* Constant "Closed" */
    /* RelationalOperator "Is above" */
    s->v56 = (uint8_t)(((int64_t)s->v53 > (int64_t)s->v54) ? INT64_C(1) : INT64_C(0));
    /* RelationalOperator "Is below" */
    s->v57 = (uint8_t)(((int64_t)s->v53 < (int64_t)s->v55) ? INT64_C(1) : INT64_C(0));
    /* Switch "At most full" */
    s->v58 = (int32_t)(((int64_t)s->v56 != INT64_C(0)) ? (int64_t)s->v54 : (int64_t)s->v53);
    /* Switch "At least closed" */
    s->v59 = (int32_t)(((int64_t)s->v57 != INT64_C(0)) ? (int64_t)s->v55 : (int64_t)s->v58);
    s->v60 = (int32_t)(int64_t)s->v59; /* Outport "Limited" */
    s->v61 = (uint8_t)(int64_t)s->v56; /* Outport "Above" */
    s->v62 = (uint8_t)(int64_t)s->v57; /* Outport "Below" */
}

void s52_update(struct s52 *s, int32_t now, int32_t u1) {
}

void s52_start(struct s52 *s) {
    s->v53 = (int32_t)INT64_C(0); /* Inport "Wanted" */
    s->v54 = (int32_t)INT64_C(0); /* Constant "Full" */
    s->v55 = (int32_t)INT64_C(0); /* Constant "Closed" */
    s->v56 = (uint8_t)INT64_C(0); /* RelationalOperator "Is above" */
    s->v57 = (uint8_t)INT64_C(0); /* RelationalOperator "Is below" */
    s->v58 = (int32_t)INT64_C(0); /* Switch "At most full" */
    s->v59 = (int32_t)INT64_C(0); /* Switch "At least closed" */
    s->v60 = (int32_t)INT64_C(0); /* Outport "Limited" */
    s->v61 = (uint8_t)INT64_C(0); /* Outport "Above" */
    s->v62 = (uint8_t)INT64_C(0); /* Outport "Below" */
}

void s52_reset(struct s52 *s) {
}

static void s43_g1(struct s43 *s, int32_t now, uint8_t ctl) {
    if ((int64_t)s->k1 == INT64_C(0)) {
        s->k1 = (uint8_t)INT64_C(1); /* group 1 has run */
        if ((int64_t)ctl > INT64_C(0)) {
            s->v50 = (int32_t)(int64_t)s->m50; /* UnitDelay "Integral" */
        }
    }
}

/* "Throttle" from "Target", "Speed" */
void s43_out1(struct s43 *s, int32_t now, int16_t u1, int16_t u2, uint8_t ctl) {
    s43_g1(s, (int32_t)(int64_t)now, (uint8_t)(int64_t)ctl);
    if ((int64_t)ctl > INT64_C(0)) {
        s->v44 = (int16_t)(int64_t)u1; /* Inport "Target" */
        s->v45 = (int16_t)(int64_t)u2; /* Inport "Speed" */
        /* Sum "Error" */
        s->v47 = (int16_t)clamp(((int64_t)s->v44 + (-(int64_t)s->v45)), (-INT64_C(32768)), INT64_C(32767));
        s->v48 = (int32_t)(((int64_t)s->v47 * INT64_C(8)) * INT64_C(512)); /* Gain "Kp" */
        /* Sum "Wanted" */
        s->v51 = (int32_t)clamp(((int64_t)s->v48 + (int64_t)s->v50), (-INT64_C(2147483648)), INT64_C(2147483647));
        s52_out1(&s->s52, (int32_t)(int64_t)now, (int32_t)(int64_t)s->v51); /* SubSystem "Limit" */
        /* DataTypeConversion "In percent" */
        s->v71 = (uint16_t)clamp(round_nearest((int64_t)s->s52.v60, INT64_C(256)), INT64_C(0), INT64_C(65535));
        s->v73 = (uint16_t)(int64_t)s->v71; /* Outport "Throttle" */
    } else {
        s->v73 = (uint16_t)INT64_C(0); /* Outport "Throttle" */
    }
}

/* "Trim" */
void s43_out2(struct s43 *s, int32_t now, uint8_t ctl) {
    s43_g1(s, (int32_t)(int64_t)now, (uint8_t)(int64_t)ctl);
    if ((int64_t)ctl > INT64_C(0)) {
        /* DataTypeConversion "Trim in percent" */
        s->v72 = (int16_t)clamp(round_nearest((int64_t)s->v50, INT64_C(512)), (-INT64_C(32768)), INT64_C(32767));
        s->v74 = (int16_t)(int64_t)s->v72; /* Outport "Trim" */
    }
}

void s43_update(struct s43 *s, int32_t now, int16_t u1, int16_t u2, uint8_t ctl) {
    if ((int64_t)ctl > INT64_C(0)) {
        /* Gain "Ki" */
        s->v49 = (int32_t)round_nearest(((int64_t)s->v47 * INT64_C(6554)), INT64_C(128));
        s->v63 = (int16_t)INT64_C(0); /* Constant "No error" */
        /* RelationalOperator "Too slow" */
        s->v64 = (uint8_t)(((int64_t)s->v47 > (int64_t)s->v63) ? INT64_C(1) : INT64_C(0));
        /* RelationalOperator "Too fast" */
        s->v65 = (uint8_t)(((int64_t)s->v47 < (int64_t)s->v63) ? INT64_C(1) : INT64_C(0));
        /* Sum "Integrated" */
        s->v69 = (int32_t)clamp(((int64_t)s->v50 + (int64_t)s->v49), (-INT64_C(2147483648)), INT64_C(2147483647));
        /* Logic "Winds up" */
        s->v66 = (uint8_t)((((int64_t)s->s52.v61 != INT64_C(0)) && ((int64_t)s->v64 != INT64_C(0))) ? INT64_C(1) : INT64_C(0));
        /* Logic "Winds down" */
        s->v67 = (uint8_t)((((int64_t)s->s52.v62 != INT64_C(0)) && ((int64_t)s->v65 != INT64_C(0))) ? INT64_C(1) : INT64_C(0));
        /* Logic "Winds" */
        s->v68 = (uint8_t)((((int64_t)s->v66 != INT64_C(0)) || ((int64_t)s->v67 != INT64_C(0))) ? INT64_C(1) : INT64_C(0));
        /* Switch "Anti-windup" */
        s->v70 = (int32_t)(((int64_t)s->v68 != INT64_C(0)) ? (int64_t)s->v50 : (int64_t)s->v69);
        s->m50 = (int32_t)(int64_t)s->v70; /* memory of UnitDelay "Integral" */
        /* SubSystem "Limit" */
        s52_update(&s->s52, (int32_t)(int64_t)now, (int32_t)(int64_t)s->v51);
    } else {
        s->m50 = (int32_t)INT64_C(0); /* memory of UnitDelay "Integral" */
        s52_reset(&s->s52); /* SubSystem "Limit" */
    }
    s->k1 = (uint8_t)INT64_C(0); /* group 1 has run */
}

void s43_start(struct s43 *s) {
    s->v44 = (int16_t)INT64_C(0); /* Inport "Target" */
    s->v45 = (int16_t)INT64_C(0); /* Inport "Speed" */
    s->v47 = (int16_t)INT64_C(0); /* Sum "Error" */
    s->v48 = (int32_t)INT64_C(0); /* Gain "Kp" */
    s->v49 = (int32_t)INT64_C(0); /* Gain "Ki" */
    s->v50 = (int32_t)INT64_C(0); /* UnitDelay "Integral" */
    s->v51 = (int32_t)INT64_C(0); /* Sum "Wanted" */
    s->v63 = (int16_t)INT64_C(0); /* Constant "No error" */
    s->v64 = (uint8_t)INT64_C(0); /* RelationalOperator "Too slow" */
    s->v65 = (uint8_t)INT64_C(0); /* RelationalOperator "Too fast" */
    s->v66 = (uint8_t)INT64_C(0); /* Logic "Winds up" */
    s->v67 = (uint8_t)INT64_C(0); /* Logic "Winds down" */
    s->v68 = (uint8_t)INT64_C(0); /* Logic "Winds" */
    s->v69 = (int32_t)INT64_C(0); /* Sum "Integrated" */
    s->v70 = (int32_t)INT64_C(0); /* Switch "Anti-windup" */
    s->v71 = (uint16_t)INT64_C(0); /* DataTypeConversion "In percent" */
    s->v72 = (int16_t)INT64_C(0); /* DataTypeConversion "Trim in percent" */
    s->v73 = (uint16_t)INT64_C(0); /* Outport "Throttle" */
    s->v74 = (int16_t)INT64_C(0); /* Outport "Trim" */
    s->m50 = (int32_t)INT64_C(0); /* memory of UnitDelay "Integral" */
    s52_start(&s->s52); /* SubSystem "Limit" */
    s->k1 = (uint8_t)INT64_C(0); /* group 1 has run */
}

void s43_reset(struct s43 *s) {
    s->m50 = (int32_t)INT64_C(0); /* memory of UnitDelay "Integral" */
    s52_reset(&s->s52); /* SubSystem "Limit" */
}

/* "Engaged" from "Set", "Resume", "Brake", "Speed" */
void s31_out1(struct s31 *s, int32_t now, uint8_t u1, uint8_t u2, uint8_t u3, int16_t u4) {
    s->v32 = (uint8_t)(int64_t)u1; /* Inport "Set" */
    s->v33 = (uint8_t)(int64_t)u2; /* Inport "Resume" */
    s->v34 = (uint8_t)(int64_t)u3; /* Inport "Brake" */
    s->v35 = (int16_t)(int64_t)u4; /* Inport "Speed" */
    s->v36 = (uint8_t)(int64_t)s->m36; /* UnitDelay "Was engaged" */
    /* Logic "Stays or begins" */
    s->v37 = (uint8_t)(((((int64_t)s->v32 != INT64_C(0)) || ((int64_t)s->v33 != INT64_C(0))) || ((int64_t)s->v36 != INT64_C(0))) ? INT64_C(1) : INT64_C(0));
    /* Logic "No brake" */
    s->v38 = (uint8_t)((!((int64_t)s->v34 != INT64_C(0))) ? INT64_C(1) : INT64_C(0));
    s->v39 = (int16_t)INT64_C(3840); /* Constant "Least speed" */
    /* RelationalOperator "Fast enough" */
    s->v40 = (uint8_t)(((int64_t)s->v35 >= (int64_t)s->v39) ? INT64_C(1) : INT64_C(0));
    /* Logic "May be" */
    s->v41 = (uint8_t)(((((int64_t)s->v37 != INT64_C(0)) && ((int64_t)s->v38 != INT64_C(0))) && ((int64_t)s->v40 != INT64_C(0))) ? INT64_C(1) : INT64_C(0));
    s->v42 = (uint8_t)(int64_t)s->v41; /* Outport "Engaged" */
}

void s31_update(struct s31 *s, int32_t now, uint8_t u1, uint8_t u2, uint8_t u3, int16_t u4) {
    s->m36 = (uint8_t)(int64_t)s->v41; /* memory of UnitDelay "Was engaged" */
}

void s31_start(struct s31 *s) {
    s->v32 = (uint8_t)INT64_C(0); /* Inport "Set" */
    s->v33 = (uint8_t)INT64_C(0); /* Inport "Resume" */
    s->v34 = (uint8_t)INT64_C(0); /* Inport "Brake" */
    s->v35 = (int16_t)INT64_C(0); /* Inport "Speed" */
    s->v36 = (uint8_t)INT64_C(0); /* UnitDelay "Was engaged" */
    s->v37 = (uint8_t)INT64_C(0); /* Logic "Stays or begins" */
    s->v38 = (uint8_t)INT64_C(0); /* Logic "No brake" */
    s->v39 = (int16_t)INT64_C(0); /* Constant "Least speed" */
    s->v40 = (uint8_t)INT64_C(0); /* RelationalOperator "Fast enough" */
    s->v41 = (uint8_t)INT64_C(0); /* Logic "May be" */
    s->v42 = (uint8_t)INT64_C(0); /* Outport "Engaged" */
    s->m36 = (uint8_t)INT64_C(0); /* memory of UnitDelay "Was engaged" */
}

void s31_reset(struct s31 *s) {
    s->m36 = (uint8_t)INT64_C(0); /* memory of UnitDelay "Was engaged" */
}

/* "Target" from "Speed" */
void s24_out1(struct s24 *s, int32_t now, int16_t u1, uint8_t ctl) {
    if (((int64_t)ctl > INT64_C(0)) && (((int64_t)now % INT64_C(5)) == INT64_C(0))) {
        s->v25 = (int16_t)(int64_t)u1; /* Inport "Speed" */
        s->v27 = (int16_t)(int64_t)s->v25; /* Outport "Target" */
    }
}

void s24_update(struct s24 *s, int32_t now, int16_t u1, uint8_t ctl) {
}

void s24_start(struct s24 *s) {
    s->v25 = (int16_t)INT64_C(0); /* Inport "Speed" */
    s->v27 = (int16_t)INT64_C(0); /* Outport "Target" */
}

void s24_reset(struct s24 *s) {
}

/* "y" from "x" */
void s13_out1(struct s13 *s, int32_t now, int16_t u1) {
    s->v14 = (int16_t)(int64_t)u1; /* Inport "x" */
    s->v15 = (int32_t)(int64_t)s->m15; /* UnitDelay "State" */
    /* Sum "Error" */
    s->v16 = (int32_t)wrap((((int64_t)s->v14 * INT64_C(512)) + (-(int64_t)s->v15)), (-INT64_C(2147483648)), INT64_C(4294967296));
    /* Gain "Coefficient" */
    s->v17 = (int32_t)round_nearest(((int64_t)s->v16 * INT64_C(26214)), INT64_C(65536));
    /* Sum "Next" */
    s->v18 = (int32_t)clamp(((int64_t)s->v15 + (int64_t)s->v17), (-INT64_C(2147483648)), INT64_C(2147483647));
    /* DataTypeConversion "To output" */
    s->v19 = (int16_t)clamp(round_nearest((int64_t)s->v18, INT64_C(512)), (-INT64_C(32768)), INT64_C(32767));
    s->v20 = (int16_t)(int64_t)s->v19; /* Outport "y" */
}

void s13_update(struct s13 *s, int32_t now, int16_t u1) {
    s->m15 = (int32_t)(int64_t)s->v18; /* memory of UnitDelay "State" */
}

void s13_start(struct s13 *s) {
    s->v14 = (int16_t)INT64_C(0); /* Inport "x" */
    s->v15 = (int32_t)INT64_C(0); /* UnitDelay "State" */
    s->v16 = (int32_t)INT64_C(0); /* Sum "Error" */
    s->v17 = (int32_t)INT64_C(0); /* Gain "Coefficient" */
    s->v18 = (int32_t)INT64_C(0); /* Sum "Next" */
    s->v19 = (int16_t)INT64_C(0); /* DataTypeConversion "To output" */
    s->v20 = (int16_t)INT64_C(0); /* Outport "y" */
    s->m15 = (int32_t)INT64_C(0); /* memory of UnitDelay "State" */
}

void s13_reset(struct s13 *s) {
    s->m15 = (int32_t)INT64_C(0); /* memory of UnitDelay "State" */
}

/* "y" from "x" */
void s5_out1(struct s5 *s, int32_t now, int16_t u1) {
    s->v6 = (int16_t)(int64_t)u1; /* Inport "x" */
    s->v7 = (int32_t)(int64_t)s->m7; /* UnitDelay "State" */
    /* Sum "Error" */
    s->v8 = (int32_t)wrap((((int64_t)s->v6 * INT64_C(512)) + (-(int64_t)s->v7)), (-INT64_C(2147483648)), INT64_C(4294967296));
    /* Gain "Coefficient" */
    s->v9 = (int32_t)round_nearest(((int64_t)s->v8 * INT64_C(26214)), INT64_C(65536));
    /* Sum "Next" */
    s->v10 = (int32_t)clamp(((int64_t)s->v7 + (int64_t)s->v9), (-INT64_C(2147483648)), INT64_C(2147483647));
    /* DataTypeConversion "To output" */
    s->v11 = (int16_t)clamp(round_nearest((int64_t)s->v10, INT64_C(512)), (-INT64_C(32768)), INT64_C(32767));
    s->v12 = (int16_t)(int64_t)s->v11; /* Outport "y" */
}

void s5_update(struct s5 *s, int32_t now, int16_t u1) {
    s->m7 = (int32_t)(int64_t)s->v10; /* memory of UnitDelay "State" */
}

void s5_start(struct s5 *s) {
    s->v6 = (int16_t)INT64_C(0); /* Inport "x" */
    s->v7 = (int32_t)INT64_C(0); /* UnitDelay "State" */
    s->v8 = (int32_t)INT64_C(0); /* Sum "Error" */
    s->v9 = (int32_t)INT64_C(0); /* Gain "Coefficient" */
    s->v10 = (int32_t)INT64_C(0); /* Sum "Next" */
    s->v11 = (int16_t)INT64_C(0); /* DataTypeConversion "To output" */
    s->v12 = (int16_t)INT64_C(0); /* Outport "y" */
    s->m7 = (int32_t)INT64_C(0); /* memory of UnitDelay "State" */
}

void s5_reset(struct s5 *s) {
    s->m7 = (int32_t)INT64_C(0); /* memory of UnitDelay "State" */
}

static void top_g1(struct top *s, int32_t now) {
    if ((int64_t)s->k1 == INT64_C(0)) {
        s->k1 = (uint8_t)INT64_C(1); /* group 1 has run */
        if (((int64_t)now % INT64_C(5)) == INT64_C(0)) {
            s->v28 = (int16_t)(int64_t)s->m28; /* RateTransition "Target to fast" */
        }
    }
}

/* "Throttle", "Trim", "Engaged" from "Left wheel", "Right w... */
void top_out1(struct top *s, int32_t now, int16_t u1, int16_t u2, uint8_t u5) {
    top_g1(s, (int32_t)(int64_t)now);
    s->v0 = (int16_t)(int64_t)u1; /* Inport "Left wheel" */
    s->v1 = (int16_t)(int64_t)u2; /* Inport "Right wheel" */
    s->v4 = (uint8_t)(int64_t)u5; /* Inport "Brake" */
    if (((int64_t)now % INT64_C(5)) == INT64_C(0)) {
        s->v29 = (uint8_t)(int64_t)s->m29; /* RateTransition "Set to fast" */
        s->v30 = (uint8_t)(int64_t)s->m30; /* RateTransition "Resume to fast" */
    }
    s5_out1(&s->s5, (int32_t)(int64_t)now, (int16_t)(int64_t)s->v0); /* SubSystem "Left filter" */
    /* SubSystem "Right filter" */
    s13_out1(&s->s13, (int32_t)(int64_t)now, (int16_t)(int64_t)s->v1);
    s->v21 = (int32_t)((int64_t)s->s5.v12 + (int64_t)s->s13.v20); /* Sum "Both" */
    /* Gain "Mean" */
    s->v22 = (int16_t)wrap(round_nearest((int64_t)s->v21, INT64_C(2)), (-INT64_C(32768)), INT64_C(65536));
    /* SubSystem "Mode" */
    s31_out1(&s->s31, (int32_t)(int64_t)now, (uint8_t)(int64_t)s->v29, (uint8_t)(int64_t)s->v30, (uint8_t)(int64_t)s->v4, (int16_t)(int64_t)s->v22);
    s->v78 = (uint8_t)(int64_t)s->s31.v42; /* Outport "Engaged" */
    /* SubSystem "Regulator" */
    s43_out1(&s->s43, (int32_t)(int64_t)now, (int16_t)(int64_t)s->v28, (int16_t)(int64_t)s->v22, (uint8_t)(int64_t)s->s31.v42);
    s->v75 = (uint16_t)(int64_t)s->s43.v73; /* Outport "Throttle" */
    /* SubSystem "Regulator" */
    s43_out2(&s->s43, (int32_t)(int64_t)now, (uint8_t)(int64_t)s->s31.v42);
    s->v76 = (int16_t)(int64_t)s->s43.v74; /* Outport "Trim" */
}

/* "Target" */
void top_out2(struct top *s, int32_t now) {
    top_g1(s, (int32_t)(int64_t)now);
    s->v77 = (int16_t)(int64_t)s->v28; /* Outport "Target" */
}

void top_update(struct top *s, int32_t now, int16_t u1, int16_t u2, uint8_t u3, uint8_t u4, uint8_t u5) {
    if (((int64_t)now % INT64_C(5)) == INT64_C(0)) {
        s->v2 = (uint8_t)(int64_t)u3; /* Inport "Set" */
        s->v3 = (uint8_t)(int64_t)u4; /* Inport "Resume" */
        s->v23 = (int16_t)(int64_t)s->v22; /* RateTransition "Speed to slow" */
    }
    /* SubSystem "Target memory" */
    s24_out1(&s->s24, (int32_t)(int64_t)now, (int16_t)(int64_t)s->v23, (uint8_t)(int64_t)s->v2);
    if (((int64_t)now % INT64_C(5)) == INT64_C(0)) {
        s->m28 = (int16_t)(int64_t)s->s24.v27; /* memory of RateTransition "Target to fast" */
        s->m29 = (uint8_t)(int64_t)s->v2; /* memory of RateTransition "Set to fast" */
        s->m30 = (uint8_t)(int64_t)s->v3; /* memory of RateTransition "Resume to fast" */
    }
    s5_update(&s->s5, (int32_t)(int64_t)now, (int16_t)(int64_t)s->v0); /* SubSystem "Left filter" */
    /* SubSystem "Right filter" */
    s13_update(&s->s13, (int32_t)(int64_t)now, (int16_t)(int64_t)s->v1);
    /* SubSystem "Target memory" */
    s24_update(&s->s24, (int32_t)(int64_t)now, (int16_t)(int64_t)s->v23, (uint8_t)(int64_t)s->v2);
    /* SubSystem "Mode" */
    s31_update(&s->s31, (int32_t)(int64_t)now, (uint8_t)(int64_t)s->v29, (uint8_t)(int64_t)s->v30, (uint8_t)(int64_t)s->v4, (int16_t)(int64_t)s->v22);
    /* SubSystem "Regulator" */
    s43_update(&s->s43, (int32_t)(int64_t)now, (int16_t)(int64_t)s->v28, (int16_t)(int64_t)s->v22, (uint8_t)(int64_t)s->s31.v42);
    s->k1 = (uint8_t)INT64_C(0); /* group 1 has run */
}

void top_start(struct top *s) {
    s->v0 = (int16_t)INT64_C(0); /* Inport "Left wheel" */
    s->v1 = (int16_t)INT64_C(0); /* Inport "Right wheel" */
    s->v2 = (uint8_t)INT64_C(0); /* Inport "Set" */
    s->v3 = (uint8_t)INT64_C(0); /* Inport "Resume" */
    s->v4 = (uint8_t)INT64_C(0); /* Inport "Brake" */
    s->v21 = (int32_t)INT64_C(0); /* Sum "Both" */
    s->v22 = (int16_t)INT64_C(0); /* Gain "Mean" */
    s->v23 = (int16_t)INT64_C(0); /* RateTransition "Speed to slow" */
    s->v28 = (int16_t)INT64_C(0); /* RateTransition "Target to fast" */
    s->v29 = (uint8_t)INT64_C(0); /* RateTransition "Set to fast" */
    s->v30 = (uint8_t)INT64_C(0); /* RateTransition "Resume to fast" */
    s->v75 = (uint16_t)INT64_C(0); /* Outport "Throttle" */
    s->v76 = (int16_t)INT64_C(0); /* Outport "Trim" */
    s->v77 = (int16_t)INT64_C(0); /* Outport "Target" */
    s->v78 = (uint8_t)INT64_C(0); /* Outport "Engaged" */
    s->m28 = (int16_t)INT64_C(0); /* memory of RateTransition "Target to fast" */
    s->m29 = (uint8_t)INT64_C(0); /* memory of RateTransition "Set to fast" */
    s->m30 = (uint8_t)INT64_C(0); /* memory of RateTransition "Resume to fast" */
    s5_start(&s->s5); /* SubSystem "Left filter" */
    s13_start(&s->s13); /* SubSystem "Right filter" */
    s24_start(&s->s24); /* SubSystem "Target memory" */
    s31_start(&s->s31); /* SubSystem "Mode" */
    s43_start(&s->s43); /* SubSystem "Regulator" */
    s->k1 = (uint8_t)INT64_C(0); /* group 1 has run */
}

void top_reset(struct top *s) {
    s->m28 = (int16_t)INT64_C(0); /* memory of RateTransition "Target to fast" */
    s->m29 = (uint8_t)INT64_C(0); /* memory of RateTransition "Set to fast" */
    s->m30 = (uint8_t)INT64_C(0); /* memory of RateTransition "Resume to fast" */
    s5_reset(&s->s5); /* SubSystem "Left filter" */
    s13_reset(&s->s13); /* SubSystem "Right filter" */
    s24_reset(&s->s24); /* SubSystem "Target memory" */
    s31_reset(&s->s31); /* SubSystem "Mode" */
    s43_reset(&s->s43); /* SubSystem "Regulator" */
}

void root_start(struct root *s) {
    top_start(&s->top); /* the model */
    s->y1 = (uint16_t)(int64_t)s->top.v75; /* output 1 */
    s->y2 = (int16_t)(int64_t)s->top.v76; /* output 2 */
    s->y3 = (int16_t)(int64_t)s->top.v77; /* output 3 */
    s->y4 = (uint8_t)(int64_t)s->top.v78; /* output 4 */
    s->now = (int32_t)INT64_C(0); /* tick of the cycle */
}

void root_step(struct root *s, int16_t u1, int16_t u2, uint8_t u3, uint8_t u4, uint8_t u5) {
    /* the model */
    top_out1(&s->top, (int32_t)(int64_t)s->now, (int16_t)(int64_t)u1, (int16_t)(int64_t)u2, (uint8_t)(int64_t)u5);
    top_out2(&s->top, (int32_t)(int64_t)s->now); /* the model */
    /* the model */
    top_update(&s->top, (int32_t)(int64_t)s->now, (int16_t)(int64_t)u1, (int16_t)(int64_t)u2, (uint8_t)(int64_t)u3, (uint8_t)(int64_t)u4, (uint8_t)(int64_t)u5);
    s->y1 = (uint16_t)(int64_t)s->top.v75; /* output 1 */
    s->y2 = (int16_t)(int64_t)s->top.v76; /* output 2 */
    s->y3 = (int16_t)(int64_t)s->top.v77; /* output 3 */
    s->y4 = (uint8_t)(int64_t)s->top.v78; /* output 4 */
    s->now = (int32_t)(((int64_t)s->now + INT64_C(1)) % INT64_C(5)); /* tick of the cycle */
}
