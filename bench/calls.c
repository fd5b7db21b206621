// Times the calls of each set from bytes to bytes, beside OpenSSL's of the same bytes where HAVE_OPENSSL is set. First it compares what both give. Samples of the
// two are taken in turn, so that what else the machine does falls on both. Keys, encapsulation, decapsulation and verifying: median of many samples over 64
// keys. Signing: 256 messages of 100 bytes, no context, deterministic, so both reject the same attempts; of each the best of three; median and mean over messages.
#define _GNU_SOURCE
#include "calls.h"
#include <stdio.h>
#include <stdlib.h>
#include <string.h>
#include <time.h>

enum { KEYS = 64, SAMPLES = 1600, MESSAGES = 256, LONG = 100 };

static double now(void) {
    struct timespec t;
    clock_gettime(CLOCK_MONOTONIC, &t);
    return 1e9 * t.tv_sec + t.tv_nsec;
}

static void fill(uint8_t *out, size_t n, uint32_t seed) {
    for (size_t i = 0; i < n; i++) {
        seed = seed * 1664525u + 1013904223u;
        out[i] = seed >> 24;
    }
}

static void must(int good, const char *what) {
    if (!good) {
        fprintf(stderr, "calls: %s\n", what);
        exit(1);
    }
}

static int rises(const void *a, const void *b) {
    double x = *(const double *)a, y = *(const double *)b;
    return (x > y) - (x < y);
}

static double median(double *x, int n) {
    qsort(x, n, sizeof *x, rises);
    return x[n / 2];
}

// ---- one key's bytes, and what is made by it
static uint8_t d[64], m[32], none[32], ek[1568], dk[3168], text[1568], key[32], pk[2592], sk[4896], sig[4627], message[LONG];
static uint8_t ek2[1568], dk2[3168], text2[1568], key2[32], pk2[2592], sk2[4896], sig2[4627];

static int kem_keys(int s) { return wattleauger_kem_keys(s + 1, d, d + 32, ek, EK[s], dk, DK[s]) == 0; }
static int kem_encapsulate(int s) { return wattleauger_kem_encapsulate(s + 1, ek, EK[s], m, key, text, TEXT[s]) == 0; }
static int kem_decapsulate(int s) { return wattleauger_kem_decapsulate(s + 1, dk, DK[s], text, TEXT[s], key) == 0; }
static int dsa_keys(int s) { return wattleauger_dsa_keys(s + 1, d, pk, PK[s], sk, SK[s]) == 0; }
static int dsa_sign(int s) { return wattleauger_dsa_sign(s + 1, sk, SK[s], none, 0, message, LONG, none, sig, SIG[s]) == 0; }
static int dsa_verify(int s) { return wattleauger_dsa_verify(s + 1, pk, PK[s], none, 0, message, LONG, sig, SIG[s]) == 1; }

#ifdef HAVE_OPENSSL
#include <openssl/core_names.h>
#include <openssl/crypto.h>
#include <openssl/evp.h>
static const char *KEM[3] = {"ML-KEM-512", "ML-KEM-768", "ML-KEM-1024"}, *SIGNING[3] = {"ML-DSA-44", "ML-DSA-65", "ML-DSA-87"};

static EVP_PKEY *made(const char *name, size_t seed_len) {
    EVP_PKEY *k = NULL;
    EVP_PKEY_CTX *c = EVP_PKEY_CTX_new_from_name(NULL, name, NULL);
    OSSL_PARAM p[] = {OSSL_PARAM_construct_octet_string("seed", d, seed_len), OSSL_PARAM_construct_end()};
    if (c && EVP_PKEY_keygen_init(c) > 0 && EVP_PKEY_CTX_set_params(c, p) > 0) EVP_PKEY_generate(c, &k);
    EVP_PKEY_CTX_free(c);
    return k;
}

static int written(EVP_PKEY *k, uint8_t *pub, size_t pub_len, uint8_t *priv, size_t priv_len) {
    size_t n;
    int good = k && EVP_PKEY_get_octet_string_param(k, "pub", pub, pub_len, &n) > 0 && EVP_PKEY_get_octet_string_param(k, "priv", priv, priv_len, &n) > 0;
    EVP_PKEY_free(k);
    return good;
}

static int kem_keys2(int s) { return written(made(KEM[s], 64), ek2, EK[s], dk2, DK[s]); }
static int dsa_keys2(int s) { return written(made(SIGNING[s], 32), pk2, PK[s], sk2, SK[s]); }

static int kem_encapsulate2(int s) {
    EVP_PKEY *k = EVP_PKEY_new_raw_public_key_ex(NULL, KEM[s], NULL, ek, EK[s]);
    EVP_PKEY_CTX *c = EVP_PKEY_CTX_new_from_pkey(NULL, k, NULL);
    OSSL_PARAM p[] = {OSSL_PARAM_construct_octet_string(OSSL_KEM_PARAM_IKME, m, 32), OSSL_PARAM_construct_end()};
    size_t n = TEXT[s], l = 32;
    int good = c && EVP_PKEY_encapsulate_init(c, p) > 0 && EVP_PKEY_encapsulate(c, text2, &n, key2, &l) > 0;
    EVP_PKEY_CTX_free(c);
    EVP_PKEY_free(k);
    return good;
}

static int kem_decapsulate2(int s) {
    EVP_PKEY *k = EVP_PKEY_new_raw_private_key_ex(NULL, KEM[s], NULL, dk, DK[s]);
    EVP_PKEY_CTX *c = EVP_PKEY_CTX_new_from_pkey(NULL, k, NULL);
    size_t l = 32;
    int good = c && EVP_PKEY_decapsulate_init(c, NULL) > 0 && EVP_PKEY_decapsulate(c, key2, &l, text, TEXT[s]) > 0;
    EVP_PKEY_CTX_free(c);
    EVP_PKEY_free(k);
    return good;
}

static int dsa_sign2(int s) {
    EVP_PKEY *k = EVP_PKEY_new_raw_private_key_ex(NULL, SIGNING[s], NULL, sk, SK[s]);
    EVP_PKEY_CTX *c = EVP_PKEY_CTX_new_from_pkey(NULL, k, NULL);
    EVP_SIGNATURE *a = EVP_SIGNATURE_fetch(NULL, SIGNING[s], NULL);
    int one = 1;
    OSSL_PARAM p[] = {OSSL_PARAM_construct_int(OSSL_SIGNATURE_PARAM_DETERMINISTIC, &one), OSSL_PARAM_construct_end()};
    size_t n = SIG[s];
    int good = c && a && EVP_PKEY_sign_message_init(c, a, p) > 0 && EVP_PKEY_sign(c, sig2, &n, message, LONG) > 0;
    EVP_SIGNATURE_free(a);
    EVP_PKEY_CTX_free(c);
    EVP_PKEY_free(k);
    return good;
}

static int dsa_verify2(int s) {
    EVP_PKEY *k = EVP_PKEY_new_raw_public_key_ex(NULL, SIGNING[s], NULL, pk, PK[s]);
    EVP_PKEY_CTX *c = EVP_PKEY_CTX_new_from_pkey(NULL, k, NULL);
    EVP_SIGNATURE *a = EVP_SIGNATURE_fetch(NULL, SIGNING[s], NULL);
    int good = c && a && EVP_PKEY_verify_message_init(c, a, NULL) > 0 && EVP_PKEY_verify(c, sig, SIG[s], message, LONG) > 0;
    EVP_SIGNATURE_free(a);
    EVP_PKEY_CTX_free(c);
    EVP_PKEY_free(k);
    return good;
}

// Both give the same bytes.
static void compare(int s) {
    must(kem_keys2(s) && !memcmp(ek, ek2, EK[s]) && !memcmp(dk, dk2, DK[s]), "keys of ML-KEM differ");
    must(kem_encapsulate2(s) && !memcmp(text, text2, TEXT[s]) && !memcmp(key, key2, 32), "ciphertexts differ");
    must(kem_decapsulate2(s) && !memcmp(key, key2, 32), "shared keys differ");
    must(dsa_keys2(s) && !memcmp(pk, pk2, PK[s]) && !memcmp(sk, sk2, SK[s]), "keys of ML-DSA differ");
    must(dsa_sign2(s) && !memcmp(sig, sig2, SIG[s]), "signatures differ");
    must(dsa_verify2(s), "OpenSSL refuses a signature");
}
#endif

// Everything that set s makes of seed number n.
static void make(int s, int n) {
    fill(d, 64, 2 * n + 1);
    fill(m, 32, 3 * n + 7);
    fill(message, LONG, 5 * n + 11);
    must(kem_keys(s) && kem_encapsulate(s) && kem_decapsulate(s) && dsa_keys(s) && dsa_sign(s) && dsa_verify(s), "a call refuses");
}

static double once(int (*f)(int), int s) {
    double start = now();
    must(f(s), "a call refuses");
    return now() - start;
}

static void row(const char *what, int s, double ours, double other) {
    printf("| %s | %d | %.1f |", what, s + 1, ours / 1000);
    if (other > 0) printf(" %.1f | %.2f |", other / 1000, ours / other);
    printf("\n");
}

static void time_call(const char *what, int s, int (*f)(int), int (*g)(int)) {
    static double x[SAMPLES], y[SAMPLES];
    for (int i = 0; i < SAMPLES; i++) {
        if (i % (SAMPLES / KEYS) == 0) make(s, i);
        x[i] = once(f, s);
        y[i] = g ? once(g, s) : 0;
    }
    row(what, s, median(x, SAMPLES), g ? median(y, SAMPLES) : 0);
}

static double best(int (*f)(int), int s) {
    double a = once(f, s), b = once(f, s), c = once(f, s);
    a = b < a ? b : a;
    return c < a ? c : a;
}

static void time_signing(int s, int (*g)(int)) {
    static double x[MESSAGES], y[MESSAGES];
    double a = 0, b = 0;
    make(s, 1);
    for (int i = 0; i < MESSAGES; i++) {
        fill(message, LONG, 9 * i + 5);
        a += x[i] = best(dsa_sign, s);
        b += y[i] = g ? best(g, s) : 0;
    }
    row("dsa sign, median", s, median(x, MESSAGES), g ? median(y, MESSAGES) : 0);
    row("dsa sign, mean", s, a / MESSAGES, b / MESSAGES);
}

#ifdef HAVE_OPENSSL
#define BESIDE(f) f##2
#else
#define BESIDE(f) NULL
#endif

int main(void) {
    for (int s = 0; s < 3; s++)
        for (int n = 0; n < KEYS; n++) {
            make(s, n);
#ifdef HAVE_OPENSSL
            compare(s);
#endif
        }
#ifdef HAVE_OPENSSL
    printf("%s\n\n| call | set | ours, µs | OpenSSL, µs | ratio |\n|---|---|---|---|---|\n", OpenSSL_version(OPENSSL_VERSION));
#else
    printf("| call | set | ours, µs |\n|---|---|---|\n");
#endif
    for (int s = 0; s < 3; s++) time_call("kem keys", s, kem_keys, BESIDE(kem_keys));
    for (int s = 0; s < 3; s++) time_call("kem encapsulate", s, kem_encapsulate, BESIDE(kem_encapsulate));
    for (int s = 0; s < 3; s++) time_call("kem decapsulate", s, kem_decapsulate, BESIDE(kem_decapsulate));
    for (int s = 0; s < 3; s++) time_call("dsa keys", s, dsa_keys, BESIDE(dsa_keys));
    for (int s = 0; s < 3; s++) time_signing(s, BESIDE(dsa_sign));
    for (int s = 0; s < 3; s++) time_call("dsa verify", s, dsa_verify, BESIDE(dsa_verify));
    return 0;
}
