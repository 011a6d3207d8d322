#include <stdint.h>
struct root {
    int32_t y1;
};
static void put(struct root *s, int8_t v) {
    s->y1 = (int32_t)(int64_t)v;
}
void root_start(struct root *s) {
}
void root_step(struct root *s, int32_t u1) {
    put(s, (int8_t)((int64_t)u1 * INT64_C(100)));
}
