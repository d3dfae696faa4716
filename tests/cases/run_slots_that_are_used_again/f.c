#include <stdint.h>
#ifndef D
#define D 2
#endif
typedef uint32_t reg;
uint64_t tornado_random(void);
static void g_const(reg c[D], uint64_t k) {
  c[0] = (reg)k;
  for (unsigned i = 1; i < D; i++) {
    c[i] = (reg)UINT64_C(0);
  }
}
static void g_xor(reg c[D], reg a[D], reg b[D]) {
  for (unsigned i = 0; i < D; i++) {
    c[i] = (reg)((uint64_t)a[i] ^ (uint64_t)b[i]);
  }
}
static void g_not(reg c[D], reg a[D]) {
  c[0] = (reg)((uint64_t)a[0] ^ UINT64_C(4294967295));
  for (unsigned i = 1; i < D; i++) {
    c[i] = (reg)(uint64_t)a[i];
  }
}
static void g_mask(reg c[D], reg a[D], uint64_t k) {
  for (unsigned i = 0; i < D; i++) {
    c[i] = (reg)((uint64_t)a[i] & k);
  }
}
static void g_shl(reg c[D], reg a[D], uint64_t k) {
  for (unsigned i = 0; i < D; i++) {
    c[i] = (reg)(((uint64_t)a[i] << k) & UINT64_C(4294967295));
  }
}
static void g_shr(reg c[D], reg a[D], uint64_t k) {
  for (unsigned i = 0; i < D; i++) {
    c[i] = (reg)((uint64_t)a[i] >> k);
  }
}
static void g_rotl(reg c[D], reg a[D], uint64_t k) {
  for (unsigned i = 0; i < D; i++) {
    c[i] = (reg)((((uint64_t)a[i] << k) | ((uint64_t)a[i] >> (UINT64_C(32) - k))) & UINT64_C(4294967295));
  }
}
static void g_and(reg c[D], reg a[D], reg b[D]) {
  for (unsigned i = 0; i < D; i++) {
    c[i] = (reg)((uint64_t)a[i] & (uint64_t)b[i]);
  }
  for (unsigned i = 0; i < D; i++) {
    for (unsigned j = i + 1; j < D; j++) {
      uint64_t r = (tornado_random() & UINT64_C(4294967295));
      uint64_t s = ((r ^ ((uint64_t)a[i] & (uint64_t)b[j])) ^ ((uint64_t)a[j] & (uint64_t)b[i]));
      c[i] = (reg)((uint64_t)c[i] ^ r);
      c[j] = (reg)((uint64_t)c[j] ^ s);
    }
  }
}
static void g_refresh(reg c[D], reg a[D]) {
  for (unsigned i = 0; i < D; i++) {
    c[i] = (reg)(uint64_t)a[i];
  }
  for (unsigned i = 0; i < D; i++) {
    for (unsigned j = i + 1; j < D; j++) {
      uint64_t r = (tornado_random() & UINT64_C(4294967295));
      c[i] = (reg)((uint64_t)c[i] ^ r);
      c[j] = (reg)((uint64_t)c[j] ^ r);
    }
  }
}
static void g_copy(reg c[D], reg a[D]) {
  for (unsigned i = 0; i < D; i++) {
    c[i] = (reg)(uint64_t)a[i];
  }
}
void masked(reg out[1][D], reg in[2][D]) {
  reg v[2][D];
  g_not(v[0], in[0]);
  g_not(v[1], v[0]);
  g_not(v[0], v[1]);
  g_xor(v[1], v[0], in[1]);
  g_copy(out[0], v[1]);
}
