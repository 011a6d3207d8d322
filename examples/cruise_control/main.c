/* A car on a road and the cruise control of code.c around it, in whole numbers: a line for each second.
 *
 *     cc -O2 -o cruise main.c && ./cruise
 */
#include "code.c"

#include <stdbool.h>
#include <stdio.h>

/* Speeds are fixdt(1,16,7), so one km/h is stored as 128. One percent of throttle, fixdt(0,16,8), is 256; of trim, fixdt(1,16,7), 128. */
#define KMH INT32_C(128)
#define PERCENT INT32_C(256)
#define TRIM INT32_C(128)
#define TICKS_PER_SECOND 50

/* The car has its speed in km/h times 65536, so that small changes in 20 ms count. */
#define FINE INT32_C(65536)

/* What the driver and the road do in a tick. */
struct moment {
    bool set, resume, brake, pedal, hill;
};

static bool between(int tick, int from, int to) {
    return from * TICKS_PER_SECOND <= tick * 10 && tick * 10 < to * TICKS_PER_SECOND;
}

/* Times are in tenths of a second: the driver goes at 80 km/h, sets the speed, brakes for two seconds, and resumes. */
static struct moment moment_at(int tick) {
    struct moment now = {
        .set = between(tick, 20, 22),
        .resume = between(tick, 300, 302),
        .brake = between(tick, 240, 260),
        .pedal = between(tick, 0, 21),
        .hill = between(tick, 100, 180),
    };
    return now;
}

/* The speed after 20 ms: full throttle brings 10 km/h in a second, drag takes 5 percent of the speed, a hill 2 km/h, the brake 15. */
static int32_t driven(int32_t speed, int32_t throttle, struct moment now) {
    int32_t change = throttle * (10 * FINE / TICKS_PER_SECOND / PERCENT) / 100 - speed / (20 * TICKS_PER_SECOND);
    change -= now.hill ? 2 * FINE / TICKS_PER_SECOND : 0;
    change -= now.brake ? 15 * FINE / TICKS_PER_SECOND : 0;
    return speed + change > 0 ? speed + change : 0;
}

static void print_tenths(int32_t stored, int32_t unit) {
    int32_t size = stored < 0 ? -stored : stored;
    int32_t tenths = (size * 10 + unit / 2) / unit;
    printf("%6s%3d.%d", stored < 0 ? "-" : "", (int)(tenths / 10), (int)(tenths % 10));
}

static void print_line(int tick, int32_t speed, const struct root *cruise, struct moment now) {
    printf("%3d", tick / TICKS_PER_SECOND);
    print_tenths(speed / (FINE / KMH), KMH);
    print_tenths(cruise->y3, KMH);
    print_tenths(cruise->y1, PERCENT);
    print_tenths(cruise->y2, TRIM);
    printf("  %s%s%s\n", cruise->y4 != 0 ? "engaged" : "off", now.hill ? ", hill" : "", now.brake ? ", brake" : "");
}

int main(void) {
    struct root cruise;
    int32_t speed = 80 * FINE;
    root_start(&cruise);
    printf("  s     speed    target  throttle      trim\n");
    for (int tick = 0; tick < 44 * TICKS_PER_SECOND; tick++) {
        struct moment now = moment_at(tick);
        int16_t wheel = (int16_t)(speed / (FINE / KMH));
        root_step(&cruise, wheel, wheel, now.set, now.resume, now.brake);
        speed = driven(speed, now.pedal ? 40 * PERCENT : cruise.y1, now);
        if (tick % TICKS_PER_SECOND == 0) {
            print_line(tick, speed, &cruise, now);
        }
    }
    return 0;
}
