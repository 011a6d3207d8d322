/* The numbers of the file trace, in place of sensors: what is wanted and what is seen, tick by tick, with 8 bits after the point. */
#include <stdint.h>

#define TICKS 9

static const int16_t wanted[TICKS] = {2560, 2560, 2560, 2560, 2560, 2560, 0, 0, 0};
static const int16_t seen[TICKS] = {0, 512, 1024, 1281, 1664, 1920, 2048, 1791, 1024};
