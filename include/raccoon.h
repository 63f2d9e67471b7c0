/*
 * raccoon.h: the C interface of the Raccoon signing unit (libcapi.a).
 *
 * What holds for every call:
 *
 *  - A buffer is lent as a pointer and a length. Lengths count elements: bytes (uint8_t, int8_t) or words (uint64_t, int64_t). Every pointer must
 *    lead to that many elements, aligned for their type; with length 0 it is not followed and may be NULL. A buffer that a call writes must
 *    not overlap any other buffer of that call. These are all the duties of a caller: contents, lengths and numbers may be of any kind.
 *  - A call puts its checks in the order named with it. The first check whose answer is no decides: its number is the status. 0 is yes to
 *    all (enum raccoon_status).
 *  - A result buffer is written with status 0 only, and then the whole of it. After any refusal it is as it was.
 *  - A work buffer is as it was after refusals 1 to 8, and all zero after every other end, 0 included. What it holds before is of no account.
 *  - What is lent as const is only read.
 *  - Nothing is allocated, nothing is kept between calls, no randomness is drawn: a call's answer depends on its arguments alone.
 *  - Local arrays are on the stack: signing takes up to 468 KiB of it, generating 351, verifying 216, reading a slip 216, the other calls less.
 *
 * set is 128, 192 or 256; shares is 1, 2, 4, 8, 16 or 32.
 */
#ifndef RACCOON_H
#define RACCOON_H

#include <stddef.h>
#include <stdint.h>

#ifdef __cplusplus
extern "C" {
#endif

/* ---- Status: the number of the first check whose answer is no ---- */

enum raccoon_status {
    RACCOON_OK = 0,                    /* yes to all */
    RACCOON_BAD_SET = 1,               /* Is the set 128, 192 or 256? */
    RACCOON_BAD_SHARE_COUNT = 2,       /* Is the share count 1, 2, 4, 8, 16 or 32? */
    RACCOON_BAD_KEY_LENGTH = 3,        /* Is the key exactly as long as set and share count say? (Expanded key: bytes and words.) */
    RACCOON_BAD_PUBLIC_KEY = 4,        /* Are all public key coefficients below 125? */
    RACCOON_BAD_SHARE_WORDS = 5,       /* Are all words of the full share (expanded key: of all shares) below q? */
    RACCOON_BAD_ATTEMPTS = 6,          /* Are the allowed attempts from 1 to 16? */
    RACCOON_BAD_SEEDS = 7,             /* Are seeds, or noise words, and mask seeds exactly as long as the call needs, and noise words below q? */
    RACCOON_BAD_BUFFER = 8,            /* Is each result buffer, and the work buffer, exactly its size? */
    RACCOON_BAD_MESSAGE_LENGTH = 9,    /* Is the message at most 4096 bytes? */
    RACCOON_UNIFORM_NOT_FILLED = 10,   /* Did every uniform polynomial fill within 777 draws? */
    RACCOON_CHALLENGE_NOT_FILLED = 11, /* Did the challenge fill within 1088 draws? */
    RACCOON_NO_ATTEMPT_PASSED = 12,    /* Did some allowed attempt pass the bounds and fit the signature length? */
    RACCOON_BAD_SIGNATURE_LENGTH = 13, /* Is the signature exactly as long as the set says? */
    RACCOON_BAD_SIGNATURE_FORM = 14,   /* Is the signature the very byte string that the writer makes of the fields read from it? */
    RACCOON_BAD_SIGNATURE_BOUNDS = 15, /* Do the fields of the signature pass the bounds? */
    RACCOON_BAD_SIGNATURE_HASH = 16,   /* Is the recomputed challenge hash equal? */
    RACCOON_BAD_SLIP_MARK = 17,        /* Does the slip begin with the mark TMR? */
    RACCOON_BAD_SLIP_VERSION = 18,     /* Is the version of the slip 1? */
    RACCOON_BAD_SLIP_LENGTH = 19,      /* Has the slip its 10 leading bytes, a text of at most 512 bytes and a signature of some set's length? */
    RACCOON_MASKS_NOT_FILLED = 20      /* Did every mask polynomial fill within 777 draws? */
};

/* ---- Sizes ----
 *
 * Each macro is a constant expression where its arguments are, as a static array needs it. For sets and share counts outside the lists above
 * they mean nothing. What a signing call takes, raccoon_lengths tells too, from numbers of any kind.
 *
 *   set   k  l   public key   expanded key   signature   a seed
 *                     bytes          bytes       bytes    bytes
 *   128   5  4         2256           2288       11524       16
 *   192   7  5         3160           3208       14544       24
 *   256   9  7         4064           4128       20330       32
 *
 *   set  shares   signing    seeds of   noise seeds   noise words     share      work
 *                     key      keygen   per attempt   per attempt     words     words
 *                   bytes       bytes         bytes
 *   128       1     14800        1168          1152          4608      2048     15360
 *   128       2     14816        1184          1152          9216      4096     21504
 *   128       4     14848        1216          1152         18432      8192     33792
 *   128       8     14912        4736          4608         36864     16384     58368
 *   128      16     15040        4864          4608         73728     32768    107520
 *   128      32     15296       18944         18432        147456     65536    205824
 *   192       1     18840        2328          2304          6144      2560     18432
 *   192       2     18864        2352          2304         12288      5120     25600
 *   192       4     18912        2400          2304         24576     10240     39936
 *   192       8     19008        9408          9216         49152     20480     68608
 *   192      16     19200        9600          9216         98304     40960    125952
 *   192      32     19584       37632         36864        196608     81920    240640
 *   256       1     26016        4128          4096          8192      3584     22528
 *   256       2     26048        4160          4096         16384      7168     31744
 *   256       4     26112        4224          4096         32768     14336     50176
 *   256       8     26240       16640         16384         65536     28672     87040
 *   256      16     26496       16896         16384        131072     57344    160768
 *   256      32     27008       66560         65536        262144    114688    308224
 */

#define RACCOON_Q 549824583172097u          /* the modulus q = 16515073 x 33292289 */
#define RACCOON_N 512u                      /* words in a polynomial */
#define RACCOON_MASK_SEED_BYTES 32u         /* one mask seed; signing takes one for each attempt */
#define RACCOON_MAX_ATTEMPTS 16u
#define RACCOON_MAX_MESSAGE_BYTES 4096u
#define RACCOON_SLIP_LEADING_BYTES 10u      /* of a slip, before its text */
#define RACCOON_MAX_TEXT_BYTES 512u         /* of a slip */

#define RACCOON_K(set) ((set) == 128 ? 5u : (set) == 192 ? 7u : 9u)
#define RACCOON_L(set) ((set) == 128 ? 4u : (set) == 192 ? 5u : 7u)
#define RACCOON_REPETITIONS(shares) ((shares) == 1 ? 8u : (shares) == 4 || (shares) == 16 ? 2u : 4u)
#define RACCOON_SEED_BYTES(set) ((set) / 8u)

/* seed of the matrix, then k polynomials of 7 bits a coefficient */
#define RACCOON_PUBLIC_KEY_BYTES(set) (RACCOON_SEED_BYTES(set) + 448u * RACCOON_K(set))

/* the public key, then shares - 1 share seeds, then one share in full: l polynomials of 49 bits a coefficient */
#define RACCOON_SIGNING_KEY_BYTES(set, shares) \
    (RACCOON_PUBLIC_KEY_BYTES(set) + ((shares) - 1u) * RACCOON_SEED_BYTES(set) + 3136u * RACCOON_L(set))

#define RACCOON_SIGNATURE_BYTES(set) ((set) == 128 ? 11524u : (set) == 192 ? 14544u : 20330u)

/* a slip with a text of so many bytes */
#define RACCOON_SLIP_BYTES(set, text_len) (RACCOON_SLIP_LEADING_BYTES + (text_len) + RACCOON_SIGNATURE_BYTES(set))

/* bytes of an expanded key: the public key, then its digest H(vk), the first 32, 48 or 64 bytes of SHAKE256 over the public key */
#define RACCOON_EXPANDED_BYTES(set) (RACCOON_PUBLIC_KEY_BYTES(set) + (set) / 4u)

/* words of an expanded key: l polynomials of `shares` shares of 512 words */
#define RACCOON_SHARE_WORDS(set, shares) (RACCOON_N * RACCOON_L(set) * (shares))

/* noise seeds of one attempt; signing takes `attempts` times as many */
#define RACCOON_NOISE_SEED_BYTES(set, shares) \
    ((RACCOON_L(set) + RACCOON_K(set)) * (shares) * RACCOON_REPETITIONS(shares) * RACCOON_SEED_BYTES(set))

/* explicit noise of one attempt, in its place; signing takes `attempts` times as many */
#define RACCOON_NOISE_WORDS(set, shares) (RACCOON_N * (RACCOON_L(set) + RACCOON_K(set)) * (shares))

/* seeds of key generation: the matrix seed, the noise seeds of one attempt, shares - 1 share seeds */
#define RACCOON_KEYGEN_SEED_BYTES(set, shares) (RACCOON_NOISE_SEED_BYTES(set, shares) + (shares) * RACCOON_SEED_BYTES(set))

/* work buffer of key generation and of signing */
#define RACCOON_WORK_WORDS(set, shares) \
    (RACCOON_N * (2u * RACCOON_L(set) * (shares) + 4u * (shares) + 2u * RACCOON_K(set) + 8u))

/* ---- Keys ---- */

/*
 * Generates a key.  Checks 1, 2, 7, 8, 10, 20.
 *
 * Reads   seeds       RACCOON_KEYGEN_SEED_BYTES(set, shares) bytes: matrix seed, noise seeds, share seeds, joined
 *         mask_seed   RACCOON_MASK_SEED_BYTES bytes
 * Writes  key_out     RACCOON_SIGNING_KEY_BYTES(set, shares) bytes: the signing key, whose front, RACCOON_PUBLIC_KEY_BYTES(set) bytes, is the
 *                     public key
 *         work        RACCOON_WORK_WORDS(set, shares) words
 * After   0           key_out the key, work zero
 *         10, 20      key_out as it was, work zero
 *         1, 2, 7, 8  both as they were
 */
uint32_t raccoon_keygen(uint32_t set, uint32_t shares, const uint8_t *seeds, size_t seeds_len, const uint8_t *mask_seed, size_t mask_seed_len,
                        uint8_t *key_out, size_t key_out_len, uint64_t *work, size_t work_len);

/*
 * Expands a signing key: the digest of its public key, and all shares in full, as raccoon_sign_expanded takes them.
 * Checks 1, 2, 3, 4, 5, 8, 10.
 *
 * Reads   key         RACCOON_SIGNING_KEY_BYTES(set, shares) bytes
 * Writes  bytes_out   RACCOON_EXPANDED_BYTES(set) bytes: the public key, and behind it its digest; raccoon_verify takes their front,
 *                     RACCOON_PUBLIC_KEY_BYTES(set) bytes
 *         words_out   RACCOON_SHARE_WORDS(set, shares) words below q: polynomial by polynomial, the shares of one behind each other
 * After   0           both hold the expanded key
 *         any other   both as they were
 */
uint32_t raccoon_expand_key(uint32_t set, uint32_t shares, const uint8_t *key, size_t key_len, uint8_t *bytes_out, size_t bytes_out_len,
                            uint64_t *words_out, size_t words_out_len);

/*
 * Shares the secret of an expanded key anew: the sum of the shares modulo q is what it was. Public key and digest are carried on as they were
 * lent; a digest that is not the public key's hash is not mended.  Checks 1, 2, 3, 4, 5, 7, 8, 20.
 *
 * Reads   bytes       RACCOON_EXPANDED_BYTES(set) bytes; check 4 is of the public key alone, the digest may be anything
 *         words       RACCOON_SHARE_WORDS(set, shares) words
 *         mask_seed   RACCOON_MASK_SEED_BYTES bytes
 * Writes  bytes_out, words_out   as raccoon_expand_key; buffers other than bytes and words
 * After   0           both hold the refreshed key
 *         any other   both as they were
 */
uint32_t raccoon_refresh_key(uint32_t set, uint32_t shares, const uint8_t *bytes, size_t bytes_len, const uint64_t *words, size_t words_len,
                             const uint8_t *mask_seed, size_t mask_seed_len, uint8_t *bytes_out, size_t bytes_out_len, uint64_t *words_out,
                             size_t words_out_len);

/* ---- Signing ---- */

/*
 * What a signing call from seeds takes, for all its attempts. With a refusal the three numbers are 0.
 */
struct raccoon_signing_lengths {
    uint32_t status;
    uint64_t noise_seed_bytes; /* attempts x RACCOON_NOISE_SEED_BYTES(set, shares) */
    uint64_t mask_seed_bytes;  /* attempts x RACCOON_MASK_SEED_BYTES */
    uint64_t work_words;       /* RACCOON_WORK_WORDS(set, shares) */
};

/*
 * Tells what raccoon_sign, raccoon_sign_expanded and raccoon_kat_sign take of this set, share count and number of attempts.  Checks 1, 2, 6.
 *
 * A signing call with just these lengths, and RACCOON_SIGNATURE_BYTES(set) for the signature, passes checks 7 and 8. With any other length of
 * one of the four it does not. Mask seeds and work buffer are the same with explicit noise; key generation takes the same work buffer, and for
 * its noise seeds what one attempt takes.
 */
struct raccoon_signing_lengths raccoon_lengths(uint32_t set, uint32_t shares, uint32_t attempts);

/*
 * What signing returns. attempts is, with status 0, the number of the first attempt that passed (from 1); with 12 all allowed attempts; with
 * 11 and 20 the attempt that met it; with any other status 0.
 */
struct raccoon_signed {
    uint32_t status;
    uint32_t attempts;
};

/*
 * Signs a message with a signing key.  Checks 1 to 10, then 20 and 11 within each attempt, then 12.
 *
 * attempts is the number of attempts allowed, 1 to 16. They run in order; the first that passes gives the signature. One that meets 11 or 20
 * ends the call. Of the masks drawn before the challenge 20 is put ahead of 11, of those drawn behind it behind 11.
 *
 * Reads   key             RACCOON_SIGNING_KEY_BYTES(set, shares) bytes
 *         message         at most RACCOON_MAX_MESSAGE_BYTES bytes; empty is allowed
 *         noise_seeds     attempts x RACCOON_NOISE_SEED_BYTES(set, shares) bytes
 *         mask_seeds      attempts x RACCOON_MASK_SEED_BYTES bytes
 * Writes  signature_out   RACCOON_SIGNATURE_BYTES(set) bytes
 *         work            RACCOON_WORK_WORDS(set, shares) words
 * After   0               signature_out the signature, work zero; raccoon_verify returns 0 for it
 *         1 to 8          both as they were
 *         9 to 12, 20     signature_out as it was, work zero
 */
struct raccoon_signed raccoon_sign(uint32_t set, uint32_t shares, uint32_t attempts, const uint8_t *key, size_t key_len, const uint8_t *message,
                                   size_t message_len, const uint8_t *noise_seeds, size_t noise_seeds_len, const uint8_t *mask_seeds,
                                   size_t mask_seeds_len, uint8_t *signature_out, size_t signature_out_len, uint64_t *work, size_t work_len);

/*
 * The same with an expanded key: bytes, RACCOON_EXPANDED_BYTES(set) bytes, and words, RACCOON_SHARE_WORDS(set, shares) words. Checks 3 to 5
 * are of these; share seeds are no part of check 10.
 *
 * The public key is not hashed again: mu is the hash of the digest lent and the message. With the digest that expanding made, the signature is
 * byte for byte that of raccoon_sign. A key with another digest signs with that digest, and 0 from raccoon_verify is then not assured: short
 * of a collision of the hash it returns 16.
 */
struct raccoon_signed raccoon_sign_expanded(uint32_t set, uint32_t shares, uint32_t attempts, const uint8_t *bytes, size_t bytes_len,
                                            const uint64_t *words, size_t words_len, const uint8_t *message, size_t message_len,
                                            const uint8_t *noise_seeds, size_t noise_seeds_len, const uint8_t *mask_seeds,
                                            size_t mask_seeds_len, uint8_t *signature_out, size_t signature_out_len, uint64_t *work,
                                            size_t work_len);

/*
 * raccoon_sign with explicit noise in place of noise seeds, for comparisons: noise_words, attempts x RACCOON_NOISE_WORDS(set, shares) words
 * below q, polynomial by polynomial, the shares of one behind each other. The noise decides how safe the key is: sign in earnest from seeds.
 */
struct raccoon_signed raccoon_sign_explicit(uint32_t set, uint32_t shares, uint32_t attempts, const uint8_t *key, size_t key_len,
                                            const uint8_t *message, size_t message_len, const uint64_t *noise_words, size_t noise_words_len,
                                            const uint8_t *mask_seeds, size_t mask_seeds_len, uint8_t *signature_out, size_t signature_out_len,
                                            uint64_t *work, size_t work_len);

/* raccoon_sign_expanded with explicit noise, as in raccoon_sign_explicit. */
struct raccoon_signed raccoon_sign_expanded_explicit(uint32_t set, uint32_t shares, uint32_t attempts, const uint8_t *bytes, size_t bytes_len,
                                                     const uint64_t *words, size_t words_len, const uint8_t *message, size_t message_len,
                                                     const uint64_t *noise_words, size_t noise_words_len, const uint8_t *mask_seeds,
                                                     size_t mask_seeds_len, uint8_t *signature_out, size_t signature_out_len, uint64_t *work,
                                                     size_t work_len);

/* ---- Verifying ---- */

/*
 * Verifies a signature.  Checks 1, 3, 4, 9, 13, 14, 15, 10, 11, 16, in this order. Writes nothing.
 *
 * Reads   public_key  RACCOON_PUBLIC_KEY_BYTES(set) bytes
 *         message     at most RACCOON_MAX_MESSAGE_BYTES bytes
 *         signature   RACCOON_SIGNATURE_BYTES(set) bytes
 *
 * 0: the signature is good. Any other status: it is not, or could not be asked. Accept on 0 and on nothing else.
 */
uint32_t raccoon_verify(uint32_t set, const uint8_t *public_key, size_t public_key_len, const uint8_t *message, size_t message_len,
                        const uint8_t *signature, size_t signature_len);

/* ---- Slips ----
 *
 * A slip is a release order in one piece:
 *
 *   the mark TMR                3 bytes
 *   the version, 1              2
 *   the movement number         2
 *   the track                   1
 *   the length of the text      2
 *   the text                    0 to RACCOON_MAX_TEXT_BYTES
 *   the signature               RACCOON_SIGNATURE_BYTES(set)
 *
 * Numbers are little-endian. The signed message is everything before the signature, at most 522 bytes. The set follows from how many bytes are
 * left for the signature.
 *
 * To make a slip: write it around a signature of zeros, sign its front, the first RACCOON_SLIP_LEADING_BYTES + text_len bytes, and write it
 * again with the signature. Neither call has a work buffer.
 */

/*
 * What reading a slip returns. With 17, 18 and 19 every field beside the status is 0. With any other status, refusals too, all are what the
 * slip says: text and signature by place, that is, the number of the first byte, from 0, and how many bytes there are. text_at is then
 * RACCOON_SLIP_LEADING_BYTES, and signature_at the length of the signed message.
 */
struct raccoon_slip {
    uint32_t status;
    uint16_t movement;
    uint8_t track;
    uint32_t set; /* 128, 192 or 256; 0 where no fields come back */
    size_t text_at, text_len, signature_at, signature_len;
};

/*
 * Reads a slip and verifies it.  Checks 17, 18, 19, 3, 4, 14, 15, 10, 11, 16, in this order. Writes nothing.
 *
 * Reads   public_key  RACCOON_PUBLIC_KEY_BYTES(set) bytes, of the set that the slip's length says
 *         slip        any number of bytes
 *
 * 17: there are fewer than 3 bytes, or others than TMR. 18: fewer than 5, or the version is not 1. 19: fewer than 10, the text length is above
 * RACCOON_MAX_TEXT_BYTES, or the bytes behind the text are as many as no set's signature has; a text that reaches past the end is among these.
 *
 * From there on the status is that of raccoon_verify with this set, the key lent, the bytes before the signature as message, and the signature.
 * 1, 9 and 13 never come: the set is one of the three, the message is short enough, and the signature is as long as the set says.
 *
 * 0: the signature is good. Accept on 0 and on nothing else: fields that come back beside a refusal are what anybody may have written.
 */
struct raccoon_slip raccoon_read_slip(const uint8_t *public_key, size_t public_key_len, const uint8_t *slip, size_t slip_len);

/*
 * Writes a slip.  Checks 19, here: is the text at most 512 bytes, and the signature as long as some set says? Then 8.
 *
 * Reads   text        at most RACCOON_MAX_TEXT_BYTES bytes of any kind; empty is allowed
 *         signature   RACCOON_SIGNATURE_BYTES(set) bytes of any kind: they are not looked at
 * Writes  slip_out    RACCOON_SLIP_BYTES(set, text_len) bytes
 * After   0           slip_out the slip
 *         19, 8       as it was
 *
 * What was written reads back to these fields. What was read, with any status but 17, 18 and 19, writes back to its bytes.
 */
uint32_t raccoon_write_slip(uint16_t movement, uint8_t track, const uint8_t *text, size_t text_len, const uint8_t *signature,
                            size_t signature_len, uint8_t *slip_out, size_t slip_out_len);

/* ---- The length of a signature ---- */

/* How many bits a signature has before it is filled with zeros. With a refusal the number is 0. */
struct raccoon_bits {
    uint32_t status;
    uint64_t bits;
};

/*
 * Counts the bits that the writer makes of a challenge hash of the set, a hint and a response.  Checks 1, 13, here: are hint and response
 * exactly k and l polynomials long? Writes nothing.
 *
 * Reads   hint        RACCOON_N x RACCOON_K(set) signed bytes of any value
 *         response    RACCOON_N x RACCOON_L(set) signed words of any value
 *
 * The number is exact, whatever the values. The largest, at set 256 with all values the least of their types, is 30065521152.
 *
 * The writer gives a signature exactly where the number is not above 8 x RACCOON_SIGNATURE_BYTES(set), and fills what is left with zeros. An
 * attempt that passes the bounds is over for its length exactly where it is above. Whether fields pass the bounds is not asked here.
 */
struct raccoon_bits raccoon_signature_bits(uint32_t set, const int8_t *hint, size_t hint_len, const int64_t *response, size_t response_len);

/* ---- The samplers over lent bytes ---- */

/*
 * A uniform polynomial of draws of 49 bits, 7 bytes each; a draw of q or more is dropped.  Checks 8, 10.
 *
 * Reads   bytes       any number of bytes; of these at most 777 draws
 * Writes  words_out   RACCOON_N words: with 0 the polynomial, else as they were
 */
uint32_t raccoon_sample_uniform(const uint8_t *bytes, size_t bytes_len, uint64_t *words_out, size_t words_out_len);

/*
 * A challenge polynomial of draws of a position and a sign, 2 bytes each; a draw on a taken position is dropped.  Checks 1, 8, 11.
 *
 * Reads   bytes       any number of bytes; of these at most 1088 draws
 * Writes  signed_bytes_out   RACCOON_N bytes, each 1, 0 or -1: with 0 the polynomial, else as they were
 */
uint32_t raccoon_sample_challenge(uint32_t set, const uint8_t *bytes, size_t bytes_len, int8_t *signed_bytes_out, size_t signed_bytes_out_len);

/* ---- The edition of the submission's response files ----
 *
 * As their namesakes, with the three differences that the response files have to the printed text (docs/GUIDE.md, Editions). Keys, with two
 * shares or more, and signatures of one edition are not those of the other.
 */

uint32_t raccoon_kat_keygen(uint32_t set, uint32_t shares, const uint8_t *seeds, size_t seeds_len, const uint8_t *mask_seed,
                            size_t mask_seed_len, uint8_t *key_out, size_t key_out_len, uint64_t *work, size_t work_len);

uint32_t raccoon_kat_expand_key(uint32_t set, uint32_t shares, const uint8_t *key, size_t key_len, uint8_t *bytes_out, size_t bytes_out_len,
                                uint64_t *words_out, size_t words_out_len);

struct raccoon_signed raccoon_kat_sign(uint32_t set, uint32_t shares, uint32_t attempts, const uint8_t *key, size_t key_len,
                                       const uint8_t *message, size_t message_len, const uint8_t *noise_seeds, size_t noise_seeds_len,
                                       const uint8_t *mask_seeds, size_t mask_seeds_len, uint8_t *signature_out, size_t signature_out_len,
                                       uint64_t *work, size_t work_len);

uint32_t raccoon_kat_verify(uint32_t set, const uint8_t *public_key, size_t public_key_len, const uint8_t *message, size_t message_len,
                            const uint8_t *signature, size_t signature_len);

#ifdef __cplusplus
}
#endif

#endif
