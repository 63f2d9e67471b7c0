/* Every export of raccoon.h, called from C: a line for each of the sizes, the empty calls and the round trips. */
#include <inttypes.h>
#include <raccoon.h>
#include <stdio.h>

static const uint32_t SETS[] = {128, 192, 256};
static const uint32_t SHARES[] = {1, 2, 4, 8, 16, 32};

static void sizes(void)
{
    for (size_t i = 0; i < 3; i++) {
        for (size_t j = 0; j < 6; j++) {
            uint32_t s = SETS[i], d = SHARES[j];
            printf("%u %u %u %u %u %u %u %u %u %u %u %u %u %u\n", s, d, RACCOON_K(s), RACCOON_L(s), RACCOON_PUBLIC_KEY_BYTES(s),
                   RACCOON_EXPANDED_BYTES(s), RACCOON_SIGNATURE_BYTES(s), RACCOON_SEED_BYTES(s), RACCOON_SIGNING_KEY_BYTES(s, d),
                   RACCOON_KEYGEN_SEED_BYTES(s, d), RACCOON_NOISE_SEED_BYTES(s, d), RACCOON_NOISE_WORDS(s, d), RACCOON_SHARE_WORDS(s, d),
                   RACCOON_WORK_WORDS(s, d));
        }
    }
}

/* Every pair and number of attempts: how many there are, and for how many the unit does not tell what the macros say. */
static void lengths(void)
{
    unsigned all = 0, other = 0;
    for (size_t i = 0; i < 18; i++) {
        uint32_t s = SETS[i / 6], d = SHARES[i % 6];
        for (uint32_t n = 1; n <= RACCOON_MAX_ATTEMPTS; n++) {
            struct raccoon_signing_lengths told = raccoon_lengths(s, d, n);
            all++;
            other += told.status != RACCOON_OK || told.noise_seed_bytes != n * RACCOON_NOISE_SEED_BYTES(s, d) ||
                     told.mask_seed_bytes != n * RACCOON_MASK_SEED_BYTES || told.work_words != RACCOON_WORK_WORDS(s, d);
        }
    }
    printf("lengths %u, of them other than the macros %u\n", all, other);
    printf("lengths refused %u %u %u %u\n", raccoon_lengths(0, 0, 0).status, raccoon_lengths(128, 0, 0).status,
           raccoon_lengths(128, 1, 0).status, raccoon_lengths(128, 1, RACCOON_MAX_ATTEMPTS + 1).status);
}

/* The longest slips. */
static void slip_sizes(void)
{
    printf("slips %u %u %u\n", RACCOON_SLIP_BYTES(128, RACCOON_MAX_TEXT_BYTES), RACCOON_SLIP_BYTES(192, RACCOON_MAX_TEXT_BYTES),
           RACCOON_SLIP_BYTES(256, RACCOON_MAX_TEXT_BYTES));
}

/* All buffers empty, all pointers NULL. */
static void empty_calls(void)
{
    printf("empty %u %u %u %u %u", raccoon_keygen(128, 1, NULL, 0, NULL, 0, NULL, 0, NULL, 0),
           raccoon_kat_keygen(128, 1, NULL, 0, NULL, 0, NULL, 0, NULL, 0), raccoon_expand_key(128, 1, NULL, 0, NULL, 0, NULL, 0),
           raccoon_kat_expand_key(128, 1, NULL, 0, NULL, 0, NULL, 0), raccoon_refresh_key(128, 1, NULL, 0, NULL, 0, NULL, 0, NULL, 0, NULL, 0));
    printf(" %u", raccoon_sign(128, 1, 1, NULL, 0, NULL, 0, NULL, 0, NULL, 0, NULL, 0, NULL, 0).status);
    printf(" %u", raccoon_kat_sign(128, 1, 1, NULL, 0, NULL, 0, NULL, 0, NULL, 0, NULL, 0, NULL, 0).status);
    printf(" %u", raccoon_sign_explicit(128, 1, 1, NULL, 0, NULL, 0, NULL, 0, NULL, 0, NULL, 0, NULL, 0).status);
    printf(" %u", raccoon_sign_expanded(128, 1, 1, NULL, 0, NULL, 0, NULL, 0, NULL, 0, NULL, 0, NULL, 0, NULL, 0).status);
    printf(" %u", raccoon_sign_expanded_explicit(128, 1, 1, NULL, 0, NULL, 0, NULL, 0, NULL, 0, NULL, 0, NULL, 0, NULL, 0).status);
    printf(" %u %u %u %u %u", raccoon_verify(128, NULL, 0, NULL, 0, NULL, 0), raccoon_kat_verify(128, NULL, 0, NULL, 0, NULL, 0),
           raccoon_sample_uniform(NULL, 0, NULL, 0), raccoon_sample_challenge(128, NULL, 0, NULL, 0),
           raccoon_signature_bits(128, NULL, 0, NULL, 0).status);
    printf(" %u %u\n", raccoon_read_slip(NULL, 0, NULL, 0).status, raccoon_write_slip(0, 0, NULL, 0, NULL, 0, NULL, 0));
}

enum { SET = 192, COUNT = 2, TRIES = 16 };

static uint8_t seeds[RACCOON_KEYGEN_SEED_BYTES(SET, COUNT)], key[RACCOON_SIGNING_KEY_BYTES(SET, COUNT)];
static uint8_t bytes[RACCOON_EXPANDED_BYTES(SET)], new_bytes[RACCOON_EXPANDED_BYTES(SET)];
static uint64_t words[RACCOON_SHARE_WORDS(SET, COUNT)], new_words[RACCOON_SHARE_WORDS(SET, COUNT)];
static uint8_t noise[TRIES * RACCOON_NOISE_SEED_BYTES(SET, COUNT)], masks[TRIES * RACCOON_MASK_SEED_BYTES];
static uint64_t noise_words[TRIES * RACCOON_NOISE_WORDS(SET, COUNT)], work[RACCOON_WORK_WORDS(SET, COUNT)];
static uint8_t signature[RACCOON_SIGNATURE_BYTES(SET)], slip[RACCOON_SLIP_BYTES(SET, 8)];
static const uint8_t MESSAGE[] = "exports";
static const int8_t NO_HINT[RACCOON_N * RACCOON_K(SET)]; /* in memory that cannot be written */
static const int64_t NO_RESPONSE[RACCOON_N * RACCOON_L(SET)];
static int8_t hint[RACCOON_N * RACCOON_K(SET)];
static int64_t response[RACCOON_N * RACCOON_L(SET)];

#define BYTES(array) array, sizeof(array)
#define WORDS(array) array, sizeof(array) / sizeof((array)[0])
#define PUBLIC_KEY bytes, RACCOON_PUBLIC_KEY_BYTES(SET)

/* The statuses of signing and of verifying what was signed. The signature is cleared, so that a later line does not pass by an earlier one. */
static void signed_line(const char *name, struct raccoon_signed answer, int kat)
{
    uint32_t verdict = kat ? raccoon_kat_verify(SET, PUBLIC_KEY, BYTES(MESSAGE), BYTES(signature))
                           : raccoon_verify(SET, PUBLIC_KEY, BYTES(MESSAGE), BYTES(signature));
    printf("%s %u %u\n", name, answer.status, verdict);
    for (size_t i = 0; i < sizeof signature; i++) {
        signature[i] = 0;
    }
}

/* A slip around zeros, its front signed, the slip around the signature, and what reading says: the status and every field. */
static void slips(void)
{
    uint32_t first = raccoon_write_slip(0x1234, 0xc5, BYTES(MESSAGE), BYTES(signature), BYTES(slip));
    uint32_t sign = raccoon_sign(SET, COUNT, TRIES, BYTES(key), slip, RACCOON_SLIP_LEADING_BYTES + sizeof MESSAGE, BYTES(noise), BYTES(masks),
                                 BYTES(signature), WORDS(work)).status;
    uint32_t second = raccoon_write_slip(0x1234, 0xc5, BYTES(MESSAGE), BYTES(signature), BYTES(slip));
    struct raccoon_slip read = raccoon_read_slip(PUBLIC_KEY, BYTES(slip));
    printf("slip %u %u %u\n", first, sign, second);
    printf("read %u, %u %u %u, %zu %zu, %zu %zu\n", read.status, read.movement, read.track, read.set, read.text_at, read.text_len,
           read.signature_at, read.signature_len);
    read = raccoon_read_slip(NULL, 0, BYTES(slip));
    printf("without a key %u %u\n", read.status, read.movement);
}

static void round_trips(void)
{
    uint8_t mask[RACCOON_MASK_SEED_BYTES];
    uint32_t state = 1;
    int8_t coefficients[RACCOON_N];
    uint64_t polynomial[RACCOON_N];
    size_t i;
#define FILL(array) \
    for (i = 0; i < sizeof(array); i++) { \
        state = state * 1103515245u + 12345u; \
        (array)[i] = (uint8_t)(state >> 16); \
    }
    FILL(seeds)
    FILL(mask)
    FILL(noise)
    FILL(masks)
    /* explicit noise of up to 2^40 */
    for (i = 0; i < sizeof noise_words / sizeof noise_words[0]; i++) {
        state = state * 1103515245u + 12345u;
        noise_words[i] = (uint64_t)(state >> 8) << 16;
    }

    printf("keygen %u\n", raccoon_keygen(SET, COUNT, BYTES(seeds), BYTES(mask), BYTES(key), WORDS(work)));
    printf("expand %u\n", raccoon_expand_key(SET, COUNT, BYTES(key), BYTES(bytes), WORDS(words)));
    printf("refresh %u\n", raccoon_refresh_key(SET, COUNT, BYTES(bytes), WORDS(words), BYTES(mask), BYTES(new_bytes), WORDS(new_words)));
    signed_line("sign", raccoon_sign(SET, COUNT, TRIES, BYTES(key), BYTES(MESSAGE), BYTES(noise), BYTES(masks), BYTES(signature), WORDS(work)), 0);
    signed_line("sign_expanded", raccoon_sign_expanded(SET, COUNT, TRIES, BYTES(new_bytes), WORDS(new_words), BYTES(MESSAGE), BYTES(noise),
                                                       BYTES(masks), BYTES(signature), WORDS(work)), 0);
    signed_line("sign_explicit", raccoon_sign_explicit(SET, COUNT, TRIES, BYTES(key), BYTES(MESSAGE), WORDS(noise_words), BYTES(masks),
                                                       BYTES(signature), WORDS(work)), 0);
    signed_line("sign_expanded_explicit", raccoon_sign_expanded_explicit(SET, COUNT, TRIES, BYTES(bytes), WORDS(words), BYTES(MESSAGE),
                                                                         WORDS(noise_words), BYTES(masks), BYTES(signature), WORDS(work)), 0);
    slips();
    printf("kat_keygen %u\n", raccoon_kat_keygen(SET, COUNT, BYTES(seeds), BYTES(mask), BYTES(key), WORDS(work)));
    printf("kat_expand %u\n", raccoon_kat_expand_key(SET, COUNT, BYTES(key), BYTES(bytes), WORDS(words)));
    signed_line("kat_sign", raccoon_kat_sign(SET, COUNT, TRIES, BYTES(key), BYTES(MESSAGE), BYTES(noise), BYTES(masks), BYTES(signature),
                                             WORDS(work)), 1);
    printf("no message %u", raccoon_kat_sign(SET, COUNT, TRIES, BYTES(key), NULL, 0, BYTES(noise), BYTES(masks), BYTES(signature),
                                             WORDS(work)).status);
    printf(" %u\n", raccoon_kat_verify(SET, PUBLIC_KEY, NULL, 0, BYTES(signature)));
    printf("samplers %u", raccoon_sample_uniform(BYTES(noise), WORDS(polynomial)));
    printf(" %u\n", raccoon_sample_challenge(SET, BYTES(noise), BYTES(coefficients)));
}

/* The bits of a signature of zeros, and the most that one can have. */
static void bits(void)
{
    size_t i;
    for (i = 0; i < sizeof hint; i++) {
        hint[i] = INT8_MIN;
    }
    for (i = 0; i < sizeof response / sizeof response[0]; i++) {
        response[i] = INT64_MIN;
    }
    struct raccoon_bits least = raccoon_signature_bits(SET, BYTES(NO_HINT), WORDS(NO_RESPONSE));
    struct raccoon_bits most = raccoon_signature_bits(SET, BYTES(hint), WORDS(response));
    printf("bits %u %" PRIu64 ", %u %" PRIu64 "\n", least.status, least.bits, most.status, most.bits);
}

int main(void)
{
    sizes();
    slip_sizes();
    lengths();
    empty_calls();
    round_trips();
    bits();
    return 0;
}
