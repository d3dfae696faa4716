#include <stdint.h>
#ifndef D
#define D 2
#endif
typedef uint8_t reg;
uint64_t tornado_random(void);
static void g(reg c[D], reg a[D]) { c[0] = (reg)(uint64_t)a[0]; }
void masked(reg out[1][D], reg in[32768][D]) { g(out[0], in[32767]); }
