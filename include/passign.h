/* PASSign for C (C99 or newer) and C++: link target/staticlib/libpassign_c.a, which `bin/build passign_c` builds, or libpassign.a, where bin/install put
   it. The archive is for x86-64.

   Every function takes any contents and any lengths. What is not allowed is refused with a number below 256 (PASSIGN_WRONG_LENGTH and those after it;
   passign_refusal_text says what it means), and a refused call writes nothing. Behind each function stand its refusals in the order of their tests, but
   that 1 is tested in two places: a message that is too long and an empty encoding before 2, all other lengths after it.

   A slice is a pointer and its length in elements. The pointer may be null where the length is 0. Else it is aligned for its elements, and all of
   the slice may be read, or written for a result; a result buffer overlaps no other slice, and has just the length that its set has: of an array
   signature[PASSIGN_SIGNATURE_MAX] lend PASSIGN_SIGNATURE_SIZE(set) bytes. Nothing checks the pointers, nor that there is enough stack: a function
   needs PASSIGN_STACK bytes of it below its caller's frames (tests/run holds each to it).

   The functions keep no state: they may be called from several threads at once, as long as no result buffer is shared.

   The evaluation of N coefficients at a point, an exponent j in 1..N-1, is the sum of coefficient i times g to the (i times j), modulo q. The public
   key has those of the key, the commitment is those of the mask. Masks must be drawn evenly from -k..k, be secret, and be used once, those that were passed
   over too. One passes with the probability ((2(k-b)+1) / (2k+1)) to the N: 0.16, 0.13, 0.43, 0.51 and 0.28 in sets 0 to 4. So a refusal with 9 is no
   fault: sign again with new masks.

   Encodings, numbers of several bytes with the high byte first:
     secret key   the set, then N bytes: 00, 01, or FF for -1
     public key   the set, t exponents of two bytes, strictly increasing in 1..N-1, t evaluations of three bytes, in 0..q-1
     signature    the set, b challenge entries of two bytes, by strictly increasing index (in the low 15 bits; top bit 1 for -1), N coefficients of z
                  in two bytes, two's complement

   A signature is made and checked under a rule, which says what of the commitment is hashed. Its encoding does not say under which rule it was made: the
   caller must know. Under the other rule it is judged like anybody's, by that rule, and almost always gets a no.

   Set 0 is for work by hand: about one wrong message in forty gets a yes there. Do not mark with it.

     set   N     q        g       k      b   t    secret key  public key  signature (bytes)
     0     5     31       2       6      2   2    6           11          15
     1     433   775937   268673  4095   19  200  434         1001        905
     2     577   743177   296108  16383  24  280  578         1401        1203
     3     769   1047379  421722  32767  29  386  770         1931        1597
     4     1153  968521   56574   32767  36  600  1154        3001        2379                */
#ifndef PASSIGN_H
#define PASSIGN_H

#include <stddef.h>
#include <stdint.h>

/* The refusal numbers. */
#define PASSIGN_WRONG_LENGTH 1     /* a list, pool or buffer of the wrong length, an empty encoding, or a message above 65,535 bytes */
#define PASSIGN_WRONG_SET 2        /* set not 0..4, or sets that differ */
#define PASSIGN_WRONG_EXPONENTS 4  /* exponents out of 1..N-1, or not increasing */
#define PASSIGN_WRONG_KEY 5        /* key value not allowed */
#define PASSIGN_WRONG_MASK 6       /* mask coefficient outside -k..k */
#define PASSIGN_WRONG_EVALUATION 7 /* evaluation not below q */
#define PASSIGN_NONE_PASSES 9      /* no mask, or none passes */
#define PASSIGN_POOL_SPENT 11      /* fewer than b indices kept in all of the pool */
#define PASSIGN_WRONG_ENTRIES 12   /* challenge index not below N, or not increasing */
#define PASSIGN_WRONG_RULE 18      /* rule not 1 or 2 */

/* The rules: what is hashed of the commitment, its t evaluations in 0..q-1, in order. */
#define PASSIGN_RULE_LOW_BYTE 1    /* the low byte of each: commitments that differ by 256 in an evaluation hash alike */
#define PASSIGN_RULE_THREE_BYTES 2 /* all three bytes of each, low byte first */

/* What is answered where nothing is refused. */
#define PASSIGN_NO 0       /* by passign_check */
#define PASSIGN_YES 256    /* by passign_check */
#define PASSIGN_SIGNED 256 /* by passign_sign, plus the number of masks passed over */
#define PASSIGN_DONE 0     /* by all others */

/* Limits: bytes of a message, masks of a signing, and bytes of stack that a call needs. */
#define PASSIGN_MESSAGE_MAX 65535
#define PASSIGN_MASKS_MAX 8
#define PASSIGN_STACK 131072

/* The numbers of a set and the bytes of its encodings, as in the table above: constant for a constant set, and 0 for what is no set. `set` is evaluated
   more than once. */
#define PASSIGN_SETS 5
#define PASSIGN_OF_SET(set, a, b, c, d, e) ((set) == 0 ? (a) : (set) == 1 ? (b) : (set) == 2 ? (c) : (set) == 3 ? (d) : (set) == 4 ? (e) : 0)
#define PASSIGN_N(set) PASSIGN_OF_SET(set, 5, 433, 577, 769, 1153)
#define PASSIGN_Q(set) PASSIGN_OF_SET(set, 31, 775937, 743177, 1047379, 968521)
#define PASSIGN_G(set) PASSIGN_OF_SET(set, 2, 268673, 296108, 421722, 56574)
#define PASSIGN_K(set) PASSIGN_OF_SET(set, 6, 4095, 16383, 32767, 32767)
#define PASSIGN_B(set) PASSIGN_OF_SET(set, 2, 19, 24, 29, 36)
#define PASSIGN_T(set) PASSIGN_OF_SET(set, 2, 200, 280, 386, 600)
#define PASSIGN_SECRET_KEY_SIZE(set) PASSIGN_OF_SET(set, 6, 434, 578, 770, 1154)
#define PASSIGN_PUBLIC_KEY_SIZE(set) PASSIGN_OF_SET(set, 11, 1001, 1401, 1931, 3001)
#define PASSIGN_SIGNATURE_SIZE(set) PASSIGN_OF_SET(set, 15, 905, 1203, 1597, 2379)

/* The largest of each, for room that does for every set. */
#define PASSIGN_N_MAX 1153
#define PASSIGN_B_MAX 36
#define PASSIGN_T_MAX 600
#define PASSIGN_SECRET_KEY_MAX 1154
#define PASSIGN_PUBLIC_KEY_MAX 3001
#define PASSIGN_SIGNATURE_MAX 2379

/* What a refusal number says is wrong, and what to do. */
static inline const char *passign_refusal_text(uint32_t refusal)
{
    switch (refusal) {
    case PASSIGN_WRONG_LENGTH:
        return "a list, pool or buffer does not have the length that passign.h lists, an encoding is empty, or a message has more than "
               "65,535 bytes: lend slices of the lengths of the set";
    case PASSIGN_WRONG_SET:
        return "the set is not 0 to 4, or the sets of two encodings differ: choose a set of the table, and check a signature with a "
               "public key of its own set";
    case PASSIGN_WRONG_EXPONENTS: return "the exponents are out of 1..N-1, or not strictly increasing: sort the points, each once";
    case PASSIGN_WRONG_KEY: return "a key value is not -1, 0 or 1: use these alone; in bytes -1 is FF, 0 is 00 and 1 is 01";
    case PASSIGN_WRONG_MASK: return "a mask coefficient is outside -k..k: draw the mask within k";
    case PASSIGN_WRONG_EVALUATION: return "a public evaluation is not below q: reduce it to 0..q-1: add q to a negative one";
    case PASSIGN_NONE_PASSES: return "no mask is given, or none passes: give new masks: one in two to eight passes, by the set";
    case PASSIGN_POOL_SPENT: return "the pool is spent before b indices are kept: draw with a longer pool";
    case PASSIGN_WRONG_ENTRIES: return "a challenge index is not below N, or not increasing: the signature is damaged or not one of this set";
    case PASSIGN_WRONG_RULE: return "the rule is not 1 or 2: give 1 for the low byte of each evaluation, or 2 for all three bytes";
    default: return "no refusal of this library: 0, and 256 and more, are answers; for any other number header and archive do not fit";
    }
}

#ifdef __cplusplus
extern "C" {
#endif

/* Checks a signature under a rule: PASSIGN_YES (256), PASSIGN_NO (0), else the refusal number (1, 2, 18, 4, 7, 12). Only 256 is a yes. */
uint32_t passign_check(const uint8_t *public_key, size_t public_key_length, const uint8_t *message, size_t message_length,
                       const uint8_t *signature, size_t signature_length, uint8_t rule);

/* Signs under a rule at t points with the first of 0 to 8 masks that passes, N numbers each, one after the other (masks_length is N times their number):
   256 plus the number of masks passed over, else the refusal number (1, 2, 18, 4, 5, 6, 9). */
uint32_t passign_sign(const uint8_t *secret_key, size_t secret_key_length, const uint16_t *points, size_t points_length,
                      const int16_t *masks, size_t masks_length, const uint8_t *message, size_t message_length,
                      uint8_t *signature, size_t signature_length, uint8_t rule);

/* Writes the public key of a secret key at t points: 0, else the refusal number (1, 2, 4, 5). */
uint32_t passign_public_key(const uint8_t *secret_key, size_t secret_key_length, const uint16_t *points, size_t points_length,
                            uint8_t *public_key, size_t public_key_length);

/* Evaluates N coefficients at t points, each result in signed form, from -(q-1)/2 to (q-1)/2: 0, else the refusal number (1, 2, 4). Where evaluations
   are taken they are in 0..q-1: add q to a negative one. */
uint32_t passign_evaluate(uint8_t set, const int16_t *coefficients, size_t coefficients_length, const uint16_t *points, size_t points_length,
                          int32_t *evaluations, size_t evaluations_length);

/* Evaluates N coefficients at all exponents 1 to N-1: N-1 results, in this order, each in signed form as above: 0, else the refusal number (1, 2). */
uint32_t passign_evaluate_all(uint8_t set, const int16_t *coefficients, size_t coefficients_length,
                              int32_t *evaluations, size_t evaluations_length);

/* Draws the challenge of a pool of 64 to 512 bytes, a multiple of 64, as N coefficients, exactly b of them 1 or -1 and the others 0: 0, else the refusal
   number (1, 2, 11). Signing and checking make their pool themselves, of eight digests. */
uint32_t passign_draw(uint8_t set, const uint8_t *pool, size_t pool_length, int8_t *challenge, size_t challenge_length);

/* Reads a secret key into N coefficients, each -1, 0 or 1: 0, else the refusal number (1, 2, 5). */
uint32_t passign_read_secret_key(const uint8_t *secret_key, size_t secret_key_length, int8_t *coefficients, size_t coefficients_length);

/* Writes a secret key of N coefficients: 0, else the refusal number (1, 2, 5). */
uint32_t passign_write_secret_key(uint8_t set, const int8_t *coefficients, size_t coefficients_length,
                                  uint8_t *secret_key, size_t secret_key_length);

/* Reads a public key into t exponents and t evaluations in 0..q-1: 0, else the refusal number (1, 2, 4, 7). */
uint32_t passign_read_public_key(const uint8_t *public_key, size_t public_key_length, uint16_t *points, size_t points_length,
                                 uint32_t *evaluations, size_t evaluations_length);

/* Writes a public key of t exponents and t evaluations in 0..q-1: 0, else the refusal number (1, 2, 4, 7). */
uint32_t passign_write_public_key(uint8_t set, const uint16_t *points, size_t points_length,
                                  const uint32_t *evaluations, size_t evaluations_length, uint8_t *public_key, size_t public_key_length);

/* Reads a signature into b challenge entries, each as encoded, and N coefficients of z, in range or not: 0, else the refusal number (1, 2, 12). */
uint32_t passign_read_signature(const uint8_t *signature, size_t signature_length, uint16_t *entries, size_t entries_length,
                                int16_t *z, size_t z_length);

/* Writes a signature of b challenge entries, each as encoded, and N coefficients of z, in range or not: 0, else the refusal number (1, 2, 12). */
uint32_t passign_write_signature(uint8_t set, const uint16_t *entries, size_t entries_length, const int16_t *z, size_t z_length,
                                 uint8_t *signature, size_t signature_length);

#ifdef __cplusplus
}
#endif

#endif
