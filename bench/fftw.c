/* The paper's method. For a generator w of the numbers 1..N-1 modulo N, the evaluation at exponent w^-m, less coefficient 0, is the sum over a of
   coefficient w^a times g^(w^-(m-a)): a cyclic convolution of N-1 numbers (Rader), which two real transforms of FFTW and a product of spectra give. The
   transform of the powers is prepared.

   Signing and checking are those of plain.c with this evaluation, also for the challenge, whose evaluation is a transform like that of z. The SHA-512 is
   plain C: plain_sha512, called by plain_challenge. As in plain.c nothing tests the inputs.

   Doubles are exact enough: coefficients, signed as they come, are at most 2^15 and powers in signed form below 2^19 in size, so that a value is below
   2^45, and eight of a double's 53 bits are behind the point. The largest values made have errors of 2^-9 at most, where a half would be wrong; bench.c
   holds values to plain C before it measures. */
#include "fftw.h"
#include <string.h>

/* the least number whose powers modulo n, a prime, are all of 1..n-1 */
static size_t generator(size_t n)
{
    for (size_t w = 2;; w++) {
        size_t order = 1;
        for (size_t x = w; x != 1; x = x * w % n)
            order++;
        if (order == n - 1)
            return w;
    }
}

/* index[a] = w^a; exponent w^-m has place m */
static void reorder(struct rader *r, size_t n)
{
    size_t w = generator(n), x = 1;
    for (size_t a = 0; a < n - 1; a++) {
        r->index[a] = x;
        r->place[x] = (n - 1 - a) % (n - 1);
        x = x * w % n;
    }
}

void rader_prepare(struct rader *r, const struct plain_set *s, const uint32_t *powers)
{
    size_t length = s->n - 1;
    reorder(r, s->n);
    /* before the list is filled: trying plans overwrites it */
    r->forward = fftw_plan_dft_r2c_1d(length, r->list, r->spectrum, FFTW_PATIENT | FFTW_DESTROY_INPUT);
    r->backward = fftw_plan_dft_c2r_1d(length, r->spectrum, r->list, FFTW_PATIENT | FFTW_DESTROY_INPUT);
    /* there and back FFTW multiplies by the length: divided away here, once */
    for (size_t e = 1; e <= length; e++)
        r->list[r->place[e]] = (double)plain_centred(s, powers[e]) / length;
    fftw_execute(r->forward);
    memcpy(r->of_powers, r->spectrum, sizeof r->of_powers);
}

void rader_end(struct rader *r)
{
    fftw_destroy_plan(r->forward);
    fftw_destroy_plan(r->backward);
}

/* x = x * y, number by number: written out, because C's own complex product also looks after infinities */
static void multiply(fftw_complex *restrict x, const fftw_complex *restrict y, size_t count)
{
    for (size_t i = 0; i < count; i++) {
        double real = x[i][0] * y[i][0] - x[i][1] * y[i][1];
        x[i][1] = x[i][0] * y[i][1] + x[i][1] * y[i][0];
        x[i][0] = real;
    }
}

/* The nearest integer, for less than 2^51 in size: doubles about 1.5 * 2^52 are the integers. Quicker than a call of rint. */
static double rounded(double x) { return x + 0x1.8p52 - 0x1.8p52; }

/* The residue in 0..q-1 of the integer nearest to x. Integers below 2^53 in doubles are exact, and the quotient of one below 2^45 by an odd q of 20 bits
   is far enough from a half to be rounded right: the rest is in -(q-1)/2..(q-1)/2. */
static uint32_t residue(double q, double inverse, double x)
{
    double whole = rounded(x), rest = whole - q * rounded(whole * inverse);
    return rest < 0 ? rest + q : rest;
}

void rader_evaluate(const struct plain_set *s, struct rader *r, const int16_t *coefficients, const uint16_t *points, size_t count, uint32_t *out)
{
    size_t length = s->n - 1;
    double q = s->q, inverse = 1 / q;
    for (size_t a = 0; a < length; a++)
        r->list[a] = coefficients[r->index[a]];
    fftw_execute(r->forward);
    multiply(r->spectrum, r->of_powers, length / 2 + 1);
    fftw_execute(r->backward);
    for (size_t p = 0; p < count; p++)
        out[p] = residue(q, inverse, r->list[r->place[points[p]]] + coefficients[0]);
}

static int in_range(const struct plain_set *s, const int32_t *z)
{
    int32_t bound = s->k - s->b;
    int all = 1;
    for (size_t i = 0; i < s->n; i++)
        all &= -bound <= z[i] && z[i] <= bound;
    return all;
}

static void write_signature(const struct plain_set *s, uint8_t set, const int8_t *c, const int32_t *z, uint8_t *to)
{
    *to++ = set;
    for (size_t i = 0; i < s->n; i++)
        if (c[i] != 0) {
            *to++ = i >> 8 | (c[i] < 0 ? 0x80 : 0);
            *to++ = i;
        }
    for (size_t i = 0; i < s->n; i++) {
        *to++ = z[i] >> 8;
        *to++ = z[i];
    }
}

int rader_sign(const struct plain_set *s, struct rader *r, const uint8_t *secret_key, const uint16_t *points, const int16_t *mask,
               const uint8_t *message, size_t size, uint8_t *signature, uint8_t rule)
{
    int16_t f[1153];
    int8_t c[1153];
    int32_t z[1153];
    uint32_t commitment[600];
    for (size_t i = 0; i < s->n; i++)
        f[i] = (int8_t)secret_key[1 + i];
    rader_evaluate(s, r, mask, points, s->t, commitment);
    if (!plain_challenge(s, commitment, message, size, c, rule))
        return 0;
    plain_point(s, f, c, mask, z);
    if (!in_range(s, z))
        return 0;
    write_signature(s, secret_key[0], c, z, signature);
    return 1;
}

/* the challenge, all 0 before, and z */
static void read_signature(const struct plain_set *s, const uint8_t *signature, int16_t *c, int16_t *z, int32_t *wide)
{
    const uint8_t *point = signature + 1 + 2 * s->b;
    for (size_t i = 0; i < s->b; i++)
        c[(signature[1 + 2 * i] & 0x7f) << 8 | signature[2 + 2 * i]] = signature[1 + 2 * i] & 0x80 ? -1 : 1;
    for (size_t i = 0; i < s->n; i++)
        wide[i] = z[i] = (int16_t)(point[2 * i] << 8 | point[2 * i + 1]);
}

/* the evaluations of z less those of the key times those of the challenge */
static void commit(const struct plain_set *s, struct rader *r, const uint8_t *public_key, const int16_t *c, const int16_t *z, uint32_t *commitment)
{
    const uint8_t *values = public_key + 1 + 2 * s->t;
    double q = s->q, inverse = 1 / q;
    uint16_t points[600];
    uint32_t of_c[600];
    for (size_t i = 0; i < s->t; i++)
        points[i] = public_key[1 + 2 * i] << 8 | public_key[2 + 2 * i];
    rader_evaluate(s, r, c, points, s->t, of_c);
    rader_evaluate(s, r, z, points, s->t, commitment);
    for (size_t i = 0; i < s->t; i++) {
        double v = values[3 * i] << 16 | values[3 * i + 1] << 8 | values[3 * i + 2];
        commitment[i] = residue(q, inverse, commitment[i] - v * of_c[i]);
    }
}

int rader_check(const struct plain_set *s, struct rader *r, const uint8_t *public_key, const uint8_t *message, size_t size, const uint8_t *signature,
                uint8_t rule)
{
    int16_t z[1153], c[1153] = {0};
    int32_t wide[1153];
    int8_t drawn[1153];
    uint32_t commitment[600];
    read_signature(s, signature, c, z, wide);
    if (!in_range(s, wide))
        return 0;
    commit(s, r, public_key, c, z, commitment);
    if (!plain_challenge(s, commitment, message, size, drawn, rule))
        return 0;
    for (size_t i = 0; i < s->n; i++)
        if (drawn[i] != c[i])
            return 0;
    return 1;
}
