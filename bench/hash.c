/* Times our hashes beside a plain C Keccak and OpenSSL's libcrypto in one run, and checks first that all three agree. */
#include <openssl/evp.h>
#include <stdint.h>
#include <stdio.h>
#include <stdlib.h>
#include <string.h>
#include <time.h>

/* ours, from libhash_exports.a: a slice is a pointer and a length */
void hash_keccak_f(uint64_t *lanes);
void hash_sha3_256(const uint8_t *m, size_t n, uint8_t *out);
void hash_shake128(const uint8_t *m, size_t n, uint8_t *out, size_t len);

/* ---- the plain C: loops of constant length, which the compiler unrolls */
static const uint64_t RC[24] = {
    0x0000000000000001, 0x0000000000008082, 0x800000000000808a, 0x8000000080008000, 0x000000000000808b, 0x0000000080000001,
    0x8000000080008081, 0x8000000000008009, 0x000000000000008a, 0x0000000000000088, 0x0000000080008009, 0x000000008000000a,
    0x000000008000808b, 0x800000000000008b, 0x8000000000008089, 0x8000000000008003, 0x8000000000008002, 0x8000000000000080,
    0x000000000000800a, 0x800000008000000a, 0x8000000080008081, 0x8000000000008080, 0x0000000080000001, 0x8000000080008008};
static const int RHO[25] = {0, 1, 62, 28, 27, 36, 44, 6, 55, 20, 3, 10, 43, 25, 39, 41, 45, 15, 21, 8, 18, 2, 61, 56, 14};

static inline uint64_t rotl(uint64_t x, int n) { return n ? x << n | x >> (64 - n) : x; }

__attribute__((noinline)) void c_keccak_f(uint64_t *s) {
    uint64_t a[25], b[25], c[5], d[5];
    memcpy(a, s, sizeof a);
    for (int r = 0; r < 24; r++) {
#pragma GCC unroll 25
        for (int x = 0; x < 5; x++) c[x] = a[x] ^ a[x + 5] ^ a[x + 10] ^ a[x + 15] ^ a[x + 20];
#pragma GCC unroll 25
        for (int x = 0; x < 5; x++) d[x] = c[(x + 4) % 5] ^ rotl(c[(x + 1) % 5], 1);
#pragma GCC unroll 25
        for (int i = 0; i < 25; i++) {
            int from = (i % 5 + 3 * (i / 5)) % 5 + 5 * (i % 5);
            b[i] = rotl(a[from] ^ d[from % 5], RHO[from]);
        }
#pragma GCC unroll 25
        for (int i = 0; i < 25; i++) {
            int row = 5 * (i / 5);
            a[i] = b[i] ^ (~b[row + (i + 1) % 5] & b[row + (i + 2) % 5]);
        }
        a[0] ^= RC[r];
    }
    memcpy(s, a, sizeof a);
}

static void c_sponge(size_t rate, uint8_t suffix, const uint8_t *m, size_t n, uint8_t *out, size_t len) {
    uint64_t s[25] = {0}, w;
    uint8_t last[200] = {0};
    for (; n >= rate; m += rate, n -= rate) {
        for (size_t i = 0; i < rate / 8; i++) memcpy(&w, m + 8 * i, 8), s[i] ^= w;
        c_keccak_f(s);
    }
    memcpy(last, m, n);
    last[n] = suffix;
    last[rate - 1] |= 128;
    for (size_t i = 0; i < rate / 8; i++) memcpy(&w, last + 8 * i, 8), s[i] ^= w;
    for (;;) {
        c_keccak_f(s);
        size_t k = len < rate ? len : rate;
        memcpy(out, s, k);
        out += k;
        len -= k;
        if (!len) return;
    }
}

static void c_sha3_256(const uint8_t *m, size_t n, uint8_t *out) { c_sponge(136, 6, m, n, out, 32); }
static void c_shake128(const uint8_t *m, size_t n, uint8_t *out, size_t len) { c_sponge(168, 31, m, n, out, len); }

/* ---- OpenSSL */
static EVP_MD_CTX *ctx;
static EVP_MD *md_sha3, *md_shake;
static void o_sha3_256(const uint8_t *m, size_t n, uint8_t *out) {
    EVP_DigestInit_ex2(ctx, md_sha3, NULL), EVP_DigestUpdate(ctx, m, n), EVP_DigestFinal_ex(ctx, out, NULL);
}
static void o_shake128(const uint8_t *m, size_t n, uint8_t *out, size_t len) {
    EVP_DigestInit_ex2(ctx, md_shake, NULL), EVP_DigestUpdate(ctx, m, n), EVP_DigestFinalXOF(ctx, out, len);
}

/* ---- the clock: the least of many turns, each long enough to be read */
static double now_ns(void) {
    struct timespec t;
    clock_gettime(CLOCK_MONOTONIC, &t);
    return 1e9 * t.tv_sec + t.tv_nsec;
}

#define LEAST(best, turns, each, body)                            \
    do {                                                          \
        double t0 = now_ns();                                     \
        for (int k_ = 0; k_ < (each); k_++) { body; }             \
        double t_ = (now_ns() - t0) / (each);                     \
        if (t_ < (best)) (best) = t_;                             \
    } while (0)

#define MIB (1 << 20)
static uint8_t big[MIB], o1[MIB], o2[MIB], o3[MIB];

static void agree(void) {
    for (size_t i = 0; i < MIB; i++) big[i] = (uint8_t)(i * 7 + i / 251);
    for (size_t n = 0; n < 700; n++) {
        hash_sha3_256(big, n, o1), c_sha3_256(big, n, o2), o_sha3_256(big, n, o3);
        if (memcmp(o1, o2, 32) || memcmp(o1, o3, 32)) printf("SHA3-256 differs at %zu bytes\n", n), exit(1);
        hash_shake128(big, n, o1, n + 1), c_shake128(big, n, o2, n + 1), o_shake128(big, n, o3, n + 1);
        if (memcmp(o1, o2, n + 1) || memcmp(o1, o3, n + 1)) printf("SHAKE128 differs at %zu bytes\n", n), exit(1);
    }
}

int main(void) {
    uint64_t s[25] = {1, 2, 3};
    double p[3] = {1e18, 1e18, 0}, h[3] = {1e18, 1e18, 1e18}, q[3] = {1e18, 1e18, 1e18}, b[3] = {1e18, 1e18, 1e18}, g[3] = {1e18, 1e18, 1e18};
    ctx = EVP_MD_CTX_new(), md_sha3 = EVP_MD_fetch(NULL, "SHA3-256", NULL), md_shake = EVP_MD_fetch(NULL, "SHAKE128", NULL);
    agree();
    /* the three take turns, so that what else the machine does falls on all of them */
    for (int turn = 0; turn < 60; turn++) {
        LEAST(p[0], turn, 2000, hash_keccak_f(s));
        LEAST(p[1], turn, 2000, c_keccak_f(s));
        LEAST(h[0], turn, 1, hash_sha3_256(big, MIB, o1));
        LEAST(h[1], turn, 1, c_sha3_256(big, MIB, o2));
        LEAST(h[2], turn, 1, o_sha3_256(big, MIB, o3));
        LEAST(q[0], turn, 1, hash_shake128(big, 34, o1, MIB));
        LEAST(q[1], turn, 1, c_shake128(big, 34, o2, MIB));
        LEAST(q[2], turn, 1, o_shake128(big, 34, o3, MIB));
        LEAST(b[0], turn, 500, hash_shake128(big, 34, o1, 504));
        LEAST(b[1], turn, 500, c_shake128(big, 34, o2, 504));
        LEAST(b[2], turn, 500, o_shake128(big, 34, o3, 504));
        LEAST(g[0], turn, 1000, hash_sha3_256(big, 33, o1));
        LEAST(g[1], turn, 1000, c_sha3_256(big, 33, o2));
        LEAST(g[2], turn, 1000, o_sha3_256(big, 33, o3));
    }
    printf("%-38s %10s %10s %10s\n", "", "ours", "C, gcc -O3", "OpenSSL");
    printf("%-38s %10.0f %10.0f %10s\n", "Keccak-f[1600], ns", p[0], p[1], "-");
    printf("%-38s %10.0f %10.0f %10.0f\n", "SHA3-256 of 33 bytes, ns", g[0], g[1], g[2]);
    printf("%-38s %10.2f %10.2f %10.2f\n", "SHA3-256 of 1 MiB, ms", h[0] / 1e6, h[1] / 1e6, h[2] / 1e6);
    printf("%-38s %10.0f %10.0f %10.0f\n", "SHAKE128, 34 bytes in, 504 out, ns", b[0], b[1], b[2]);
    printf("%-38s %10.2f %10.2f %10.2f\n", "SHAKE128, 1 MiB out, ms", q[0] / 1e6, q[1] / 1e6, q[2] / 1e6);
    return 0;
}
