/* Compares the eight pure functions of the emitted C with their rules in 128-bit arithmetic.
   It is compiled behind the text of the functions. Exit status 0: all agree; 1: the first disagreement was printed. */
#include <stdio.h>
#include <stdlib.h>

typedef __int128 wide;

enum { RULES = 6, DIVISORS = 62, WIDTHS = 32, ARGUMENTS = 1000000 };

static const int64_t LIMIT = INT64_C(1) << 62;

static unsigned long long calls;

/* ---- The rules. A quotient is first taken as a floor, and each rule is said of the floor and what is left above it. */

static wide floor_of(wide v, wide d) {
    wide q = v / d;
    return q * d > v ? q - 1 : q;
}

static wide above(wide v, wide d) {
    return v - floor_of(v, d) * d;
}

static wide floor_rule(wide v, wide d) {
    return floor_of(v, d);
}

static wide ceiling_rule(wide v, wide d) {
    return floor_of(v, d) + (above(v, d) != 0);
}

static wide zero_rule(wide v, wide d) {
    return v < 0 ? ceiling_rule(v, d) : floor_rule(v, d);
}

static wide nearest_rule(wide v, wide d) {
    return floor_of(v, d) + (2 * above(v, d) >= d);
}

static wide away_rule(wide v, wide d) {
    wide twice = 2 * above(v, d);
    if (twice == d) {
        return floor_of(v, d) + (v > 0);
    }
    return floor_of(v, d) + (twice > d);
}

static wide even_rule(wide v, wide d) {
    wide q = floor_of(v, d);
    wide twice = 2 * above(v, d);
    if (twice == d) {
        return q + (above(q, 2) == 1);
    }
    return q + (twice > d);
}

static wide clamp_rule(wide v, wide lo, wide hi) {
    return v < lo ? lo : v > hi ? hi : v;
}

/* The number in lo to lo + n - 1 that differs from v by a multiple of n. */
static wide wrap_rule(wide v, wide lo, wide n) {
    return lo + above(v - lo, n);
}

/* ---- Comparisons. */

static const struct {
    const char *name;
    int64_t (*printed)(int64_t v, int64_t d);
    wide (*rule)(wide v, wide d);
} ROUNDINGS[RULES] = {
    { "round_floor", round_floor, floor_rule },
    { "round_ceiling", round_ceiling, ceiling_rule },
    { "round_zero", round_zero, zero_rule },
    { "round_nearest", round_nearest, nearest_rule },
    { "round_away", round_away, away_rule },
    { "round_even", round_even, even_rule },
};

static void differ(const char *name, int64_t a, int64_t b, int64_t got, wide want) {
    printf("%s(%lld, %lld) gives %lld, and its rule %lld\n", name, (long long)a, (long long)b, (long long)got,
           (long long)want);
    exit(1);
}

static void differ3(const char *name, int64_t a, int64_t b, int64_t c, int64_t got, wide want) {
    printf("%s(%lld, %lld, %lld) gives %lld, and its rule %lld\n", name, (long long)a, (long long)b, (long long)c,
           (long long)got, (long long)want);
    exit(1);
}

static int in_range(wide v) {
    return -(wide)LIMIT <= v && v <= LIMIT;
}

static void try_roundings(wide v, int64_t d) {
    if (!in_range(v)) {
        return;
    }
    for (int r = 0; r < RULES; r++) {
        int64_t got = ROUNDINGS[r].printed((int64_t)v, d);
        wide want = ROUNDINGS[r].rule(v, d);
        calls++;
        if (got != want) {
            differ(ROUNDINGS[r].name, (int64_t)v, d, got, want);
        }
    }
}

static void try_clamp(int64_t v, int64_t lo, int64_t hi) {
    int64_t got = clamp(v, lo, hi);
    wide want = clamp_rule(v, lo, hi);
    calls++;
    if (got != want) {
        differ3("clamp", v, lo, hi, got, want);
    }
}

static void try_wrap(wide v, int64_t lo, int64_t n) {
    if (!in_range(v)) {
        return;
    }
    int64_t got = wrap((int64_t)v, lo, n);
    wide want = wrap_rule(v, lo, n);
    calls++;
    if (got != want) {
        differ3("wrap", (int64_t)v, lo, n, got, want);
    }
}

/* ---- Arguments. */

/* Knuth's MMIX generator. Its high bits are the better ones. */
static uint64_t next_state(void) {
    static uint64_t state = 1;
    state = state * UINT64_C(6364136223846793005) + UINT64_C(1442695040888963407);
    return state;
}

/* A number of at most 2^bits - 1 either way, with 0 <= bits <= 62. */
static int64_t number_of(int bits) {
    uint64_t size = (next_state() >> 1) & ((UINT64_C(1) << bits) - 1);
    return next_state() >> 63 ? -(int64_t)size : (int64_t)size;
}

static int below(int count) {
    return (int)((next_state() >> 33) % (uint64_t)count);
}

/* All numbers that a type's least and greatest one may be, and 0: of 1 to 32 bits, signed or not. */
static wide least_of(int bits, int is_signed) {
    return is_signed ? -((wide)1 << (bits - 1)) : 0;
}

static wide greatest_of(int bits, int is_signed) {
    return ((wide)1 << (is_signed ? bits - 1 : bits)) - 1;
}

/* The ends of v: 0, 1 and 2^62 each way, and one beside them. */
static const int64_t CENTERS[] = { 0, INT64_C(1) << 62, -(INT64_C(1) << 62) };

enum { COUNT_CENTERS = sizeof CENTERS / sizeof CENTERS[0] };

/* v at multiples of d / 2 and beside them: about 0, and at the ends of its range. */
static void round_ends(int64_t d) {
    for (int c = 0; c < COUNT_CENTERS; c++) {
        for (int m = -9; m <= 9; m++) {
            for (int beside = -2; beside <= 2; beside++) {
                try_roundings((wide)CENTERS[c] + (wide)m * (d / 2) + beside, d);
            }
        }
    }
}

static void wrap_ends(int64_t lo, int64_t n) {
    for (int c = 0; c < COUNT_CENTERS; c++) {
        for (int m = -9; m <= 9; m++) {
            for (int beside = -2; beside <= 2; beside++) {
                wide v = (wide)CENTERS[c] + (wide)m * (n / 2) + beside;
                try_wrap(v, lo, n);
                try_wrap(v + lo, lo, n);
            }
        }
    }
}

static void clamp_ends(int64_t lo, int64_t hi) {
    const int64_t ends[] = { 0, lo, hi, LIMIT, -LIMIT };
    for (int e = 0; e < 5; e++) {
        for (int beside = -2; beside <= 2; beside++) {
            wide v = (wide)ends[e] + beside;
            if (in_range(v)) {
                try_clamp((int64_t)v, lo, hi);
            }
        }
    }
    try_clamp(INT64_MIN, lo, hi);
    try_clamp(INT64_MAX, lo, hi);
}

static void all_ends(void) {
    for (int k = 1; k <= DIVISORS; k++) {
        round_ends(INT64_C(1) << k);
    }
    for (int w = 1; w <= WIDTHS; w++) {
        wrap_ends(0, INT64_C(1) << w);
        wrap_ends(-(INT64_C(1) << (w - 1)), INT64_C(1) << w);
        wrap_ends(-(INT64_C(1) << 31), INT64_C(1) << w);
        for (int is_signed = 0; is_signed <= 1; is_signed++) {
            clamp_ends((int64_t)least_of(w, is_signed), (int64_t)greatest_of(w, is_signed));
        }
    }
}

/* One argument of any size for each function, and one at or beside a multiple of d / 2 or n / 2. */
static void one_argument(void) {
    int64_t v = number_of(1 + below(62));
    int64_t d = INT64_C(1) << (1 + below(DIVISORS));
    int w = 1 + below(WIDTHS);
    int64_t n = INT64_C(1) << w;
    int64_t lo = -(int64_t)((next_state() >> 32) & INT64_C(0x7fffffff)) - (below(2) ? 1 : 0);
    int is_signed = below(2);
    int beside = below(3) - 1;
    try_roundings(v, d);
    try_roundings((wide)(v / d) * d + (wide)below(2) * (d / 2) + beside, d);
    try_wrap(v, lo, n);
    try_wrap((wide)(v / n) * n + lo + (wide)below(2) * (n / 2) + beside, lo, n);
    try_clamp(v, (int64_t)least_of(w, is_signed), (int64_t)greatest_of(w, is_signed));
}

int main(void) {
    struct root root;
    root_start(&root);
    root_step(&root);
    all_ends();
    for (int i = 0; i < ARGUMENTS; i++) {
        one_argument();
    }
    printf("eight functions agree with 128-bit arithmetic in %llu calls\n", calls);
    return 0;
}
