/*
 * A release order, signed and verified, then as a slip.
 *
 * A newcomer's tour of raccoon.h: ask what signing takes, make a key, expand it, sign an order, verify it, see what the verifier says when a
 * byte is changed, and put order and signature into one slip.
 *
 *     gcc -std=c99 -Wall -Wextra -Werror -Iinclude examples/release_order.c crates/capi/out/libcapi.a -o release_order
 */
#include <raccoon.h>
#include <stdio.h>
#include <stdlib.h>
#include <string.h>

/* The parameter set says how strong a signature is, the share count into how many parts the secret is split while the unit works with it. */
enum { SET = 128, SHARES = 4, ATTEMPTS = 16 };

/* What the slip says. */
enum { MOVEMENT = 17, TRACK = 4 };
static const char TEXT[] = "Gate 3, from 06:00 to 06:30.";

/*
 * Every buffer is ours, and each must have exactly its size. The header has the sizes as macros; lengths count elements, so of work words it
 * is the number of uint64_t. They are static because they are too large for some stacks.
 */
static uint8_t keygen_seeds[RACCOON_KEYGEN_SEED_BYTES(SET, SHARES)];
static uint8_t key[RACCOON_SIGNING_KEY_BYTES(SET, SHARES)];
static uint8_t expanded_bytes[RACCOON_EXPANDED_BYTES(SET)];
static uint64_t expanded_words[RACCOON_SHARE_WORDS(SET, SHARES)];
static uint8_t noise_seeds[ATTEMPTS * RACCOON_NOISE_SEED_BYTES(SET, SHARES)];
static uint8_t mask_seeds[ATTEMPTS * RACCOON_MASK_SEED_BYTES];
static uint64_t work[RACCOON_WORK_WORDS(SET, SHARES)];
static uint8_t signature[RACCOON_SIGNATURE_BYTES(SET)];
static uint8_t slip[RACCOON_SLIP_BYTES(SET, sizeof TEXT - 1)];

#define WORDS(array) (sizeof(array) / sizeof((array)[0]))

/* A status is the number of the first check whose answer was no. These are the checks. */
static const char *const CHECKS[] = {
    "yes to all",
    "Is the set 128, 192 or 256?",
    "Is the share count 1, 2, 4, 8, 16 or 32?",
    "Is the key exactly as long as set and share count say?",
    "Are all public key coefficients below 125?",
    "Are all words of the shares below q?",
    "Are the allowed attempts from 1 to 16?",
    "Are seeds or noise, and mask seeds, exactly as long as the call needs?",
    "Is each result buffer, and the work buffer, exactly its size?",
    "Is the message at most 4096 bytes?",
    "Did every uniform polynomial fill within 777 draws?",
    "Did the challenge fill within 1088 draws?",
    "Did some allowed attempt pass the bounds and fit the signature length?",
    "Is the signature exactly as long as the set says?",
    "Is it the very byte string that the writer makes of the fields read from it?",
    "Do the fields of the signature pass the bounds?",
    "Is the recomputed challenge hash equal?",
    "Does the slip begin with the mark TMR?",
    "Is the version of the slip 1?",
    "Has the slip its 10 leading bytes, a text of at most 512 bytes and a signature of some set's length?",
    "Did every mask polynomial fill within 777 draws?",
};

/* The unit draws no randomness: every seed comes from us, fresh for each call, and is used once. */
static void fill_random(uint8_t *bytes, size_t length)
{
    FILE *source = fopen("/dev/urandom", "rb");
    if (source == NULL || fread(bytes, 1, length, source) != length) {
        fprintf(stderr, "no randomness\n");
        exit(1);
    }
    fclose(source);
}

/* Secrets are ours to wipe too; a volatile pointer keeps the compiler from leaving it out. */
static void wipe(void *memory, size_t length)
{
    volatile uint8_t *byte = memory;
    while (length-- > 0) {
        *byte++ = 0;
    }
}

/* Ends the program where a call that has to succeed was refused. */
static void expect_ok(const char *call, uint32_t status)
{
    if (status != RACCOON_OK) {
        fprintf(stderr, "%s: refused with %u: %s No.\n", call, (unsigned)status, CHECKS[status]);
        exit(1);
    }
}

/*
 * Signs a message with fresh seeds, and gives the attempt that passed: one may miss the bounds, so we bring seeds for several; the unit stops
 * at the first that passes.
 */
static unsigned sign(const uint8_t *message, size_t length)
{
    fill_random(noise_seeds, sizeof noise_seeds);
    fill_random(mask_seeds, sizeof mask_seeds);
    struct raccoon_signed answer = raccoon_sign_expanded(SET, SHARES, ATTEMPTS, expanded_bytes, sizeof expanded_bytes, expanded_words,
                                                         WORDS(expanded_words), message, length, noise_seeds, sizeof noise_seeds, mask_seeds,
                                                         sizeof mask_seeds, signature, sizeof signature, work, WORDS(work));
    wipe(noise_seeds, sizeof noise_seeds);
    wipe(mask_seeds, sizeof mask_seeds);
    expect_ok("raccoon_sign_expanded", answer.status);
    return answer.attempts;
}

/* Asks the verifier, who has the public key (the front of the bytes), the order and the signature, and prints the verdict. */
static void verdict(const char *what, const char *order, size_t signature_length)
{
    uint32_t status = raccoon_verify(SET, expanded_bytes, RACCOON_PUBLIC_KEY_BYTES(SET), (const uint8_t *)order, strlen(order), signature,
                                     signature_length);
    if (status == RACCOON_OK) {
        printf("%s: 0, accepted\n", what);
    } else {
        printf("%s: %u, refused: %s No.\n", what, (unsigned)status, CHECKS[status]);
    }
}

/*
 * Asks the unit what signing takes, and compares our arrays with that: a header that is not of this library is found before a seed is drawn. A
 * program that learns set and share count only when it runs allocates by these numbers.
 */
static void check_lengths(void)
{
    struct raccoon_signing_lengths lengths = raccoon_lengths(SET, SHARES, ATTEMPTS);
    expect_ok("raccoon_lengths", lengths.status);
    if (lengths.noise_seed_bytes != sizeof noise_seeds || lengths.mask_seed_bytes != sizeof mask_seeds || lengths.work_words != WORDS(work)) {
        fprintf(stderr, "raccoon.h is not of this library\n");
        exit(1);
    }
    printf("signing takes %zu bytes of noise seeds, %zu of mask seeds, %zu words of work\n", sizeof noise_seeds, sizeof mask_seeds, WORDS(work));
}

static void write_slip(void)
{
    expect_ok("raccoon_write_slip", raccoon_write_slip(MOVEMENT, TRACK, (const uint8_t *)TEXT, sizeof TEXT - 1, signature, sizeof signature,
                                                       slip, sizeof slip));
}

/* Asks the reader, who has the public key and the slip. It verifies, and says what stands in the slip, the text by its place. */
static void slip_verdict(const char *what)
{
    struct raccoon_slip read = raccoon_read_slip(expanded_bytes, RACCOON_PUBLIC_KEY_BYTES(SET), slip, sizeof slip);
    if (read.status == RACCOON_OK) {
        printf("%s: 0, accepted: movement %u, track %u: %.*s\n", what, (unsigned)read.movement, (unsigned)read.track, (int)read.text_len,
               (const char *)slip + read.text_at);
    } else {
        printf("%s: %u, refused: %s No.\n", what, (unsigned)read.status, CHECKS[read.status]);
    }
}

int main(void)
{
    char order[] = "Release order 17: gate 3, from 06:00 to 06:30.";
    uint8_t mask_seed[RACCOON_MASK_SEED_BYTES];

    check_lengths();

    /* 1. Make a key. Its front is the public key, which everyone may have. The rest is secret. */
    fill_random(keygen_seeds, sizeof keygen_seeds);
    fill_random(mask_seed, sizeof mask_seed);
    expect_ok("raccoon_keygen", raccoon_keygen(SET, SHARES, keygen_seeds, sizeof keygen_seeds, mask_seed, sizeof mask_seed, key, sizeof key,
                                               work, WORDS(work)));
    wipe(keygen_seeds, sizeof keygen_seeds);
    wipe(mask_seed, sizeof mask_seed);
    printf("key: %zu bytes, the first %u are the public key\n", sizeof key, RACCOON_PUBLIC_KEY_BYTES(SET));

    /* 2. Expand it, once for many signatures: the public key with its digest as bytes, and all shares in full as words. */
    expect_ok("raccoon_expand_key", raccoon_expand_key(SET, SHARES, key, sizeof key, expanded_bytes, sizeof expanded_bytes, expanded_words,
                                                       WORDS(expanded_words)));
    wipe(key, sizeof key); /* in earnest: keep it in safe storage first */
    printf("expanded key: %zu bytes, %zu words in %d shares\n", sizeof expanded_bytes, WORDS(expanded_words), SHARES);

    /* 3. Sign. */
    unsigned attempt = sign((const uint8_t *)order, strlen(order));
    printf("signature: %zu bytes, attempt %u\n", sizeof signature, attempt);

    /* 4. Verify: 0, and only 0, is a yes. */
    verdict("the order", order, sizeof signature);

    /* 5. Gate 4 in place of gate 3: one byte of the order is another. */
    char *gate = strchr(order, '3');
    *gate = '4';
    verdict("a changed order", order, sizeof signature);
    *gate = '3';

    /* One bit of the signature. */
    signature[0] ^= 1;
    verdict("a changed signature", order, sizeof signature);
    signature[0] ^= 1;

    /* One byte too few. */
    verdict("a cut signature", order, sizeof signature - 1);

    /* And as it was signed. */
    verdict("the order again", order, sizeof signature);

    /* 6. A slip. Its front is what is signed: write it around zeros, sign the front, and write it again around the signature. */
    memset(signature, 0, sizeof signature);
    write_slip();
    sign(slip, RACCOON_SLIP_LEADING_BYTES + sizeof TEXT - 1);
    wipe(expanded_words, sizeof expanded_words);
    write_slip();
    printf("slip: %zu bytes, of them %zu before the signature\n", sizeof slip, sizeof slip - sizeof signature);
    slip_verdict("the slip");

    /* Another track: byte 7. */
    slip[7] ^= 1;
    slip_verdict("a changed slip");
    slip[7] ^= 1;

    /* Something else than a slip. */
    slip[0] = 'X';
    slip_verdict("no slip");
    return 0;
}
