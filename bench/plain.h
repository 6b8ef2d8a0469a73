/* Plain C of the same methods, to measure the kit against. */
#ifndef PLAIN_H
#define PLAIN_H
#include <stddef.h>
#include <stdint.h>

struct plain_set { size_t n; uint32_t q, g, k; size_t b, t; };
extern const struct plain_set plain_sets[5];

void plain_sha512(const uint8_t *message, size_t size, uint8_t digest[64]);
/* the n powers of g modulo q */
void plain_powers(const struct plain_set *s, uint32_t *powers);
/* the evaluations in 0..q-1, and a number of 0..q-1 in signed form */
void plain_evaluate(const struct plain_set *s, const uint32_t *powers, const int16_t *coefficients, const uint16_t *points, size_t count, uint32_t *out);
int32_t plain_centred(const struct plain_set *s, uint32_t value);
/* z = f * c + y, the product cyclic and c sparse */
void plain_point(const struct plain_set *s, const int16_t *f, const int8_t *c, const int16_t *y, int32_t *z);
/* the challenge of a commitment and a message under rule 1 or 2: 1, or 0 where the pool is spent */
int plain_challenge(const struct plain_set *s, const uint32_t *commitment, const uint8_t *message, size_t size, int8_t *c, uint8_t rule);
/* the challenge of a pool of 512 bytes: 1, or 0 where it is spent */
int plain_draw(const struct plain_set *s, const uint8_t *pool, int8_t *c);
/* the index of the first coefficient outside -(k - b)..k - b, or n where none is outside */
size_t plain_first_outside(const struct plain_set *s, const int32_t *z);
/* signs with one mask under a rule: 1, or 0 where it does not pass */
int plain_sign(const struct plain_set *s, const uint32_t *powers, const uint8_t *secret_key, const uint16_t *points, const int16_t *mask,
               const uint8_t *message, size_t size, uint8_t *signature, uint8_t rule);
/* checks under a rule: 1 for yes */
int plain_check(const struct plain_set *s, const uint32_t *powers, const uint8_t *public_key, const uint8_t *message, size_t size,
                const uint8_t *signature, uint8_t rule);
/* plays a session file to its end; each row overwrites the one before it */
void plain_play(const uint8_t *file, size_t size, uint8_t *rows);

#endif
