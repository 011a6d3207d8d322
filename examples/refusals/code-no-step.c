#include <stdint.h>
struct root {
    int32_t y1;
};
void root_start(struct root *s) {
}
