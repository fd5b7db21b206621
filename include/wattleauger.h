/* Wattleauger: ML-KEM (FIPS 203), ML-DSA (FIPS 204) and the functions of FIPS 202 that they use.

   Every call works on bytes that its caller lends it. It allocates nothing, reads and writes no global, and keeps nothing. Lent outputs must not overlap
   each other or an input. A pointer to no bytes may be anything but NULL.

   A set is 1, 2 or 3: ML-KEM-512, -768 and -1024, or ML-DSA-44, -65 and -87. A call answers 0, or the number of the first cause of refusal; then every lent
   byte is as it was. wattleauger_dsa_verify alone answers 1 or 0. Coins and seeds are 32 fresh random bytes from the caller.

   How much stack a call takes is in docs/BENCHMARKS.md. */
#ifndef WATTLEAUGER_H
#define WATTLEAUGER_H

#include <stddef.h>
#include <stdint.h>

#ifdef __cplusplus
extern "C" {
#endif

/* Why a call refuses. */
#define WATTLEAUGER_NO_SET 1   /* no such set */
#define WATTLEAUGER_LENGTH 2   /* lent bytes of another length than they must have */
#define WATTLEAUGER_KEY 3      /* an encapsulation key with a number of 3,329 or more in it, or a decapsulation key whose hash is not that of the encapsulation key in it */
#define WATTLEAUGER_DRAW 4     /* a draw that fell short: does not happen in practice */
#define WATTLEAUGER_CONTEXT 5  /* a context of more than 255 bytes */
#define WATTLEAUGER_ATTEMPTS 6 /* no attempt at signing was good: does not happen in practice */

/* Bytes of seeds, coins and shared keys. */
#define WATTLEAUGER_SEED 32

/* Bytes of an encapsulation key, a decapsulation key and a ciphertext. */
#define WATTLEAUGER_KEM512_EK 800
#define WATTLEAUGER_KEM512_DK 1632
#define WATTLEAUGER_KEM512_TEXT 768
#define WATTLEAUGER_KEM768_EK 1184
#define WATTLEAUGER_KEM768_DK 2400
#define WATTLEAUGER_KEM768_TEXT 1088
#define WATTLEAUGER_KEM1024_EK 1568
#define WATTLEAUGER_KEM1024_DK 3168
#define WATTLEAUGER_KEM1024_TEXT 1568

/* Bytes of a public key, a secret key and a signature. */
#define WATTLEAUGER_DSA44_PK 1312
#define WATTLEAUGER_DSA44_SK 2560
#define WATTLEAUGER_DSA44_SIG 2420
#define WATTLEAUGER_DSA65_PK 1952
#define WATTLEAUGER_DSA65_SK 4032
#define WATTLEAUGER_DSA65_SIG 3309
#define WATTLEAUGER_DSA87_PK 2592
#define WATTLEAUGER_DSA87_SK 4896
#define WATTLEAUGER_DSA87_SIG 4627

/* A pair of keys out of the seeds d and z. Refuses by 1, 2 or 4. */
uint32_t wattleauger_kem_keys(uint8_t set, const uint8_t d[32], const uint8_t z[32], uint8_t *ek, size_t ek_len, uint8_t *dk, size_t dk_len);

/* The shared key and the ciphertext of a key and the coin m. Refuses by 1, 2, 3 or 4. */
uint32_t wattleauger_kem_encapsulate(uint8_t set, const uint8_t *ek, size_t ek_len, const uint8_t m[32], uint8_t key[32], uint8_t *text, size_t text_len);

/* The shared key of a ciphertext. One that was not made so gives another key, and 0. Refuses by 1, 2, 3 or 4. */
uint32_t wattleauger_kem_decapsulate(uint8_t set, const uint8_t *dk, size_t dk_len, const uint8_t *text, size_t text_len, uint8_t key[32]);

/* A pair of keys out of the seed xi. Refuses by 1, 2 or 4. */
uint32_t wattleauger_dsa_keys(uint8_t set, const uint8_t xi[32], uint8_t *pk, size_t pk_len, uint8_t *sk, size_t sk_len);

/* The signature of a message with a context. A coin of noughts is deterministic signing. Refuses by 1, 2, 5 or 6. */
uint32_t wattleauger_dsa_sign(uint8_t set, const uint8_t *sk, size_t sk_len, const uint8_t *ctx, size_t ctx_len, const uint8_t *message, size_t message_len, const uint8_t coin[32], uint8_t *sig, size_t sig_len);

/* 1 if it is a signature of the message with the context under the key; 0 if not, and whatever does not fit. */
uint32_t wattleauger_dsa_verify(uint8_t set, const uint8_t *pk, size_t pk_len, const uint8_t *ctx, size_t ctx_len, const uint8_t *message, size_t message_len, const uint8_t *sig, size_t sig_len);

/* FIPS 202, a message at once. */
void wattleauger_sha3_256(const uint8_t *message, size_t message_len, uint8_t out[32]);
void wattleauger_sha3_512(const uint8_t *message, size_t message_len, uint8_t out[64]);
void wattleauger_shake128(const uint8_t *message, size_t message_len, uint8_t *out, size_t out_len);
void wattleauger_shake256(const uint8_t *message, size_t message_len, uint8_t *out, size_t out_len);

#ifdef __cplusplus
}
#endif
#endif
