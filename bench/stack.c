// How much stack each call takes: it is run on a thread whose stack was painted before, and what is no longer paint at its lower end was used.
// What an empty function takes is subtracted.
#define _GNU_SOURCE
#include "calls.h"
#include <pthread.h>
#include <stdio.h>
#include <stdlib.h>
#include <string.h>
#include <sys/mman.h>

enum { ROOM = 1 << 20, PAINT = 0xa5 };
static uint8_t d[64], m[32], none[32], ek[1568], dk[3168], text[1568], key[32], pk[2592], sk[4896], sig[4627], message[100];
static int set;

static void nothing(void) {}
static void kem_keys(void) { wattleauger_kem_keys(set + 1, d, d + 32, ek, EK[set], dk, DK[set]); }
static void kem_encapsulate(void) { wattleauger_kem_encapsulate(set + 1, ek, EK[set], m, key, text, TEXT[set]); }
static void kem_decapsulate(void) { wattleauger_kem_decapsulate(set + 1, dk, DK[set], text, TEXT[set], key); }
static void dsa_keys(void) { wattleauger_dsa_keys(set + 1, d, pk, PK[set], sk, SK[set]); }
static void dsa_sign(void) { wattleauger_dsa_sign(set + 1, sk, SK[set], none, 0, message, sizeof message, none, sig, SIG[set]); }
static void dsa_verify(void) { wattleauger_dsa_verify(set + 1, pk, PK[set], none, 0, message, sizeof message, sig, SIG[set]); }

static void *run(void *f) {
    (*(void (**)(void))f)();
    return NULL;
}

static size_t used(void (*f)(void)) {
    pthread_t thread;
    pthread_attr_t with;
    uint8_t *room = mmap(NULL, ROOM, PROT_READ | PROT_WRITE, MAP_PRIVATE | MAP_ANONYMOUS, -1, 0);
    memset(room, PAINT, ROOM);
    pthread_attr_init(&with);
    pthread_attr_setstack(&with, room, ROOM);
    if (room == MAP_FAILED || pthread_create(&thread, &with, run, &f)) {
        fprintf(stderr, "stack: no thread\n");
        exit(1);
    }
    pthread_join(thread, NULL);
    size_t n = 0;
    while (n < ROOM && room[n] == PAINT) n++;
    munmap(room, ROOM);
    return ROOM - n;
}

int main(void) {
    void (*const calls[])(void) = {kem_keys, kem_encapsulate, kem_decapsulate, dsa_keys, dsa_sign, dsa_verify};
    const char *const names[] = {"kem keys", "kem encapsulate", "kem decapsulate", "dsa keys", "dsa sign", "dsa verify"};
    printf("| bytes of stack | set 1 | set 2 | set 3 |\n|---|---|---|---|\n");
    for (int i = 0; i < 6; i++) {
        printf("| %s |", names[i]);
        for (set = 0; set < 3; set++) {
            // what the call is lent has to be made by those before it
            for (int j = 0; j < i; j++) calls[j]();
            printf(" %zu |", used(calls[i]) - used(nothing));
        }
        printf("\n");
    }
    return 0;
}
