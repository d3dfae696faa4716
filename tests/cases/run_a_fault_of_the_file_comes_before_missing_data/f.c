#include <stdint.h>
#ifndef D
#define D 2
#endif
typedef uint8_t reg;
uint64_t tornado_random(void);
