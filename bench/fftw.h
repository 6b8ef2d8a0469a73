/* The paper's method, to measure the kit against: evaluation by Rader's reordering with FFTW. Inputs and outputs are those of plain.h, with what is
   prepared for a set in place of the powers. */
#ifndef RADER_H
#define RADER_H
#include "plain.h"
#include <fftw3.h>

/* A set's orders, the transform of its powers, and its plans with the room that they work in: one call at a time. */
struct rader {
    uint16_t index[1152]; /* the coefficient at each place of the convolution */
    uint16_t place[1153]; /* where each exponent's value comes out */
    _Alignas(64) double list[1152];
    _Alignas(64) fftw_complex spectrum[577], of_powers[577];
    fftw_plan forward, backward; /* from list to spectrum, and from spectrum to list */
};

/* Lets FFTW try its ways for some seconds; rader_end frees the plans. */
void rader_prepare(struct rader *r, const struct plain_set *s, const uint32_t *powers);
void rader_end(struct rader *r);

void rader_evaluate(const struct plain_set *s, struct rader *r, const int16_t *coefficients, const uint16_t *points, size_t count, uint32_t *out);
int rader_sign(const struct plain_set *s, struct rader *r, const uint8_t *secret_key, const uint16_t *points, const int16_t *mask,
               const uint8_t *message, size_t size, uint8_t *signature, uint8_t rule);
int rader_check(const struct plain_set *s, struct rader *r, const uint8_t *public_key, const uint8_t *message, size_t size, const uint8_t *signature,
                uint8_t rule);

#endif
