// Times each exported function on fixed input: the median over rounds of the mean over a batch of calls.
#include <stdint.h>
#include <stdio.h>
#include <stdlib.h>
#include <time.h>

#define ROUNDS 201
#define BATCH 2000

void kem_ntt(uint16_t *f);
void kem_ntt_inverse(uint16_t *f);
void kem_multiply_ntts(uint16_t *f, const uint16_t *g);
void kem_multiply_add(uint16_t *out, const uint16_t *f, const uint16_t *g);
void kem_add(uint16_t *f, const uint16_t *g);
void kem_sub(uint16_t *f, const uint16_t *g);
void dsa_ntt(uint32_t *f);
void dsa_ntt_inverse(uint32_t *f);
void dsa_multiply_ntt(uint32_t *f, const uint32_t *g);
void dsa_multiply_add(uint32_t *out, const uint32_t *f, const uint32_t *g);
void dsa_add(uint32_t *f, const uint32_t *g);
void dsa_sub(uint32_t *f, const uint32_t *g);

static uint16_t a16[256], b16[256], c16[256];
static uint32_t a32[256], b32[256], c32[256];

static uint64_t now_ns(void) {
  struct timespec t;
  clock_gettime(CLOCK_MONOTONIC, &t);
  return (uint64_t)t.tv_sec * 1000000000u + (uint64_t)t.tv_nsec;
}

static int by_size(const void *x, const void *y) {
  uint64_t a = *(const uint64_t *)x, b = *(const uint64_t *)y;
  return a < b ? -1 : a > b;
}

#define TIME(label, call)                                                     \
  do {                                                                        \
    static uint64_t took[ROUNDS];                                             \
    for (int r = 0; r < ROUNDS; r++) {                                        \
      uint64_t start = now_ns();                                              \
      for (int i = 0; i < BATCH; i++) call;                                   \
      took[r] = now_ns() - start;                                             \
    }                                                                         \
    qsort(took, ROUNDS, sizeof took[0], by_size);                             \
    printf("%-18s %6llu ns\n", label,                                         \
           (unsigned long long)(took[ROUNDS / 2] / BATCH));                   \
  } while (0)

// The inverse undoes the transform, and x^255 times x is -1: a sign that the linked functions are the right ones.
static void sane(void) {
  uint16_t f[256], g[256];
  uint32_t h[256], k[256];
  for (int i = 0; i < 256; i++) f[i] = (uint16_t)(i * 13 % 3329), h[i] = (uint32_t)i * 32749 % 8380417;
  kem_ntt(f), kem_ntt_inverse(f), dsa_ntt(h), dsa_ntt_inverse(h);
  for (int i = 0; i < 256; i++)
    if (f[i] != i * 13 % 3329 || h[i] != (uint32_t)i * 32749 % 8380417) abort();
  for (int i = 0; i < 256; i++) f[i] = i == 255, g[i] = i == 1, h[i] = i == 255, k[i] = i == 1;
  kem_ntt(f), kem_ntt(g), kem_multiply_ntts(f, g), kem_ntt_inverse(f);
  dsa_ntt(h), dsa_ntt(k), dsa_multiply_ntt(h, k), dsa_ntt_inverse(h);
  if (f[0] != 3328 || h[0] != 8380416) abort();
  for (int i = 1; i < 256; i++)
    if (f[i] || h[i]) abort();
}

int main(void) {
  sane();
  uint32_t x = 1;
  for (int i = 0; i < 256; i++) {
    x = x * 1664525u + 1013904223u;
    a16[i] = (uint16_t)((x >> 8) % 3329), a32[i] = (x >> 8) % 8380417;
    x = x * 1664525u + 1013904223u;
    b16[i] = (uint16_t)((x >> 8) % 3329), b32[i] = (x >> 8) % 8380417;
  }
  TIME("kem ntt", kem_ntt(a16));
  TIME("kem ntt_inverse", kem_ntt_inverse(a16));
  TIME("kem multiply_ntts", kem_multiply_ntts(a16, b16));
  TIME("kem multiply_add", kem_multiply_add(c16, a16, b16));
  TIME("kem add", kem_add(a16, b16));
  TIME("kem sub", kem_sub(a16, b16));
  TIME("dsa ntt", dsa_ntt(a32));
  TIME("dsa ntt_inverse", dsa_ntt_inverse(a32));
  TIME("dsa multiply_ntt", dsa_multiply_ntt(a32, b32));
  TIME("dsa multiply_add", dsa_multiply_add(c32, a32, b32));
  TIME("dsa add", dsa_add(a32, b32));
  TIME("dsa sub", dsa_sub(a32, b32));
  return 0;
}
