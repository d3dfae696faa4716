#include <stdint.h>
#ifndef D
#define D 2
#endif
typedef uint8_t reg;
uint64_t tornado_random(void);
static void g(reg c[D], reg a[D]) { for (unsigned i = 0; i < D; i++) { for (unsigned j = 0; j < D; j++) { c[i] = (reg)(uint64_t)a[j]; } } }
void masked(reg out[1][D], reg in[1][D]) { g(out[0], in[0]); }
