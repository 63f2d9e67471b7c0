/* The stack that calls take, in KiB: each in a thread whose stack was painted before, less what a thread takes that calls nothing. A line for
 * each call, the largest over sets and share counts. */
#define _XOPEN_SOURCE 700
#include <pthread.h>
#include <stdio.h>
#include <stdlib.h>
#include <string.h>

#include "raccoon.h"

#define SIZE (4u << 20)
#define PAINT 0xa5

static unsigned char stack[SIZE] __attribute__((aligned(4096)));

/* What the calls are lent. */
static uint32_t set, shares;
static uint8_t *seeds, *key, *bytes, *fresh, *signature, *slip, masks[2 * RACCOON_MASK_SEED_BYTES], message[RACCOON_MAX_MESSAGE_BYTES];
static uint64_t *words, *fresh_words, *work;
static int8_t hint[RACCOON_N * RACCOON_K(256)];
static int64_t response[RACCOON_N * RACCOON_L(256)];
static uint32_t status;

static void generating(void) {
    status = raccoon_keygen(set, shares, seeds, RACCOON_KEYGEN_SEED_BYTES(set, shares), masks, RACCOON_MASK_SEED_BYTES, key,
                            RACCOON_SIGNING_KEY_BYTES(set, shares), work, RACCOON_WORK_WORDS(set, shares));
}

static void expanding(void) {
    status = raccoon_expand_key(set, shares, key, RACCOON_SIGNING_KEY_BYTES(set, shares), bytes, RACCOON_EXPANDED_BYTES(set), words,
                                RACCOON_SHARE_WORDS(set, shares));
}

static void refreshing(void) {
    status = raccoon_refresh_key(set, shares, bytes, RACCOON_EXPANDED_BYTES(set), words, RACCOON_SHARE_WORDS(set, shares), masks,
                                 RACCOON_MASK_SEED_BYTES, fresh, RACCOON_EXPANDED_BYTES(set), fresh_words,
                                 RACCOON_SHARE_WORDS(set, shares));
}

static void signing(void) {
    status = raccoon_sign(set, shares, 2, key, RACCOON_SIGNING_KEY_BYTES(set, shares), message, sizeof message, seeds,
                          2 * RACCOON_NOISE_SEED_BYTES(set, shares), masks, sizeof masks, signature, RACCOON_SIGNATURE_BYTES(set), work,
                          RACCOON_WORK_WORDS(set, shares))
                 .status;
}

static void signing_expanded(void) {
    status = raccoon_sign_expanded(set, shares, 2, bytes, RACCOON_EXPANDED_BYTES(set), words, RACCOON_SHARE_WORDS(set, shares), message,
                                   sizeof message, seeds, 2 * RACCOON_NOISE_SEED_BYTES(set, shares), masks, sizeof masks, signature,
                                   RACCOON_SIGNATURE_BYTES(set), work, RACCOON_WORK_WORDS(set, shares))
                 .status;
}

static void verifying(void) {
    status = raccoon_verify(set, key, RACCOON_PUBLIC_KEY_BYTES(set), message, sizeof message, signature, RACCOON_SIGNATURE_BYTES(set));
}

static void telling(void) {
    status = raccoon_lengths(set, shares, RACCOON_MAX_ATTEMPTS).status;
}

static void counting(void) {
    status = raccoon_signature_bits(set, hint, RACCOON_N * RACCOON_K(set), response, RACCOON_N * RACCOON_L(set)).status;
}

static void writing(void) {
    status = raccoon_write_slip(1, 2, message, RACCOON_MAX_TEXT_BYTES, signature, RACCOON_SIGNATURE_BYTES(set), slip,
                                RACCOON_SLIP_BYTES(set, RACCOON_MAX_TEXT_BYTES));
}

/* The signature is of another message, so that the last of all checks refuses it. */
static void reading(void) {
    status = raccoon_read_slip(key, RACCOON_PUBLIC_KEY_BYTES(set), slip, RACCOON_SLIP_BYTES(set, RACCOON_MAX_TEXT_BYTES)).status;
    status = status == RACCOON_BAD_SIGNATURE_HASH ? 0 : status + 1;
}

static void nothing(void) {
    status = 0;
}

static void (*const calls[])(void) = {nothing,   generating, expanding, refreshing, signing, signing_expanded,
                                      verifying, telling,    counting,  writing,    reading};
static const char *const names[] = {"",
                                    "raccoon_keygen",
                                    "raccoon_expand_key",
                                    "raccoon_refresh_key",
                                    "raccoon_sign",
                                    "raccoon_sign",
                                    "raccoon_verify",
                                    "raccoon_lengths",
                                    "raccoon_signature_bits",
                                    "raccoon_write_slip",
                                    "raccoon_read_slip"};
enum { CALLS = sizeof calls / sizeof *calls };

static void *run(void *call) {
    (*(void (*const *)(void))call)();
    return NULL;
}

/* The bytes of the stack that a call wrote to. */
static size_t taken(int call) {
    pthread_attr_t attributes;
    pthread_t thread;
    size_t i = 0;
    memset(stack, PAINT, SIZE);
    if (pthread_attr_init(&attributes) || pthread_attr_setstack(&attributes, stack, SIZE) ||
        pthread_create(&thread, &attributes, run, (void *)&calls[call]) || pthread_join(thread, NULL) || status != 0) {
        fprintf(stderr, "%s at %u-%u: status %u\n", names[call], (unsigned)set, (unsigned)shares, (unsigned)status);
        exit(1);
    }
    while (i < SIZE && stack[i] == PAINT)
        i++;
    return SIZE - i;
}

static void *room(size_t bytes_wanted) {
    void *p = calloc(bytes_wanted, 1);
    if (p == NULL)
        exit(1);
    return p;
}

int main(void) {
    static const uint32_t sets[] = {128, 192, 256}, counts[] = {1, 8, 32};
    size_t most[CALLS] = {0};
    for (int i = 0; i < 9; i++) {
        set = sets[i / 3];
        shares = counts[i % 3];
        size_t n = RACCOON_KEYGEN_SEED_BYTES(set, shares) + 2 * RACCOON_NOISE_SEED_BYTES(set, shares);
        seeds = room(n);
        for (size_t j = 0; j < n; j++)
            seeds[j] = (uint8_t)(j * 31 + j / 251);
        key = room(RACCOON_SIGNING_KEY_BYTES(set, shares));
        bytes = room(RACCOON_EXPANDED_BYTES(set));
        fresh = room(RACCOON_EXPANDED_BYTES(set));
        signature = room(RACCOON_SIGNATURE_BYTES(set));
        slip = room(RACCOON_SLIP_BYTES(set, RACCOON_MAX_TEXT_BYTES));
        words = room(8 * RACCOON_SHARE_WORDS(set, shares));
        fresh_words = room(8 * RACCOON_SHARE_WORDS(set, shares));
        work = room(8 * RACCOON_WORK_WORDS(set, shares));
        for (int call = 0; call < CALLS; call++) {
            size_t k = taken(call);
            if (k > most[call])
                most[call] = k;
        }
        free(seeds), free(key), free(bytes), free(fresh), free(signature), free(slip), free(words), free(fresh_words), free(work);
    }
    for (int call = 1; call < CALLS; call++)
        printf("%s %u\n", names[call], (unsigned)((most[call] - most[0] + 1023) / 1024));
    return 0;
}
