#include <stdint.h>
struct root {
    int64_t y1;
};
void root_start(struct root *s) {
}
void root_step(struct root *s, int32_t u1) {
    s->y1 = (int64_t)(INT64_C(9223372036854775806) + (int64_t)u1);
}
