#include <stdint.h>
struct root {
    int32_t y1;
};
void root_start(struct root *s) {
}
void root_step(struct root *s, int32_t u1) {
    s->y1 = (int32_t)(int64_t)u2;
}
