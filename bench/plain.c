/* Plain C of the same methods: document 01 by the shortest road, with no tests of its inputs. */
#include "plain.h"
#include <string.h>

const struct plain_set plain_sets[5] = {
    {5, 31, 2, 6, 2, 2},
    {433, 775937, 268673, 4095, 19, 200},
    {577, 743177, 296108, 16383, 24, 280},
    {769, 1047379, 421722, 32767, 29, 386},
    {1153, 968521, 56574, 32767, 36, 600},
};

static const uint64_t K[80] = {
    0x428a2f98d728ae22, 0x7137449123ef65cd, 0xb5c0fbcfec4d3b2f, 0xe9b5dba58189dbbc, 0x3956c25bf348b538, 0x59f111f1b605d019, 0x923f82a4af194f9b, 0xab1c5ed5da6d8118,
    0xd807aa98a3030242, 0x12835b0145706fbe, 0x243185be4ee4b28c, 0x550c7dc3d5ffb4e2, 0x72be5d74f27b896f, 0x80deb1fe3b1696b1, 0x9bdc06a725c71235, 0xc19bf174cf692694,
    0xe49b69c19ef14ad2, 0xefbe4786384f25e3, 0x0fc19dc68b8cd5b5, 0x240ca1cc77ac9c65, 0x2de92c6f592b0275, 0x4a7484aa6ea6e483, 0x5cb0a9dcbd41fbd4, 0x76f988da831153b5,
    0x983e5152ee66dfab, 0xa831c66d2db43210, 0xb00327c898fb213f, 0xbf597fc7beef0ee4, 0xc6e00bf33da88fc2, 0xd5a79147930aa725, 0x06ca6351e003826f, 0x142929670a0e6e70,
    0x27b70a8546d22ffc, 0x2e1b21385c26c926, 0x4d2c6dfc5ac42aed, 0x53380d139d95b3df, 0x650a73548baf63de, 0x766a0abb3c77b2a8, 0x81c2c92e47edaee6, 0x92722c851482353b,
    0xa2bfe8a14cf10364, 0xa81a664bbc423001, 0xc24b8b70d0f89791, 0xc76c51a30654be30, 0xd192e819d6ef5218, 0xd69906245565a910, 0xf40e35855771202a, 0x106aa07032bbd1b8,
    0x19a4c116b8d2d0c8, 0x1e376c085141ab53, 0x2748774cdf8eeb99, 0x34b0bcb5e19b48a8, 0x391c0cb3c5c95a63, 0x4ed8aa4ae3418acb, 0x5b9cca4f7763e373, 0x682e6ff3d6b2b8a3,
    0x748f82ee5defb2fc, 0x78a5636f43172f60, 0x84c87814a1f0ab72, 0x8cc702081a6439ec, 0x90befffa23631e28, 0xa4506cebde82bde9, 0xbef9a3f7b2c67915, 0xc67178f2e372532b,
    0xca273eceea26619c, 0xd186b8c721c0c207, 0xeada7dd6cde0eb1e, 0xf57d4f7fee6ed178, 0x06f067aa72176fba, 0x0a637dc5a2c898a6, 0x113f9804bef90dae, 0x1b710b35131c471b,
    0x28db77f523047d84, 0x32caab7b40c72493, 0x3c9ebe0a15c9bebc, 0x431d67c49c100d4c, 0x4cc5d4becb3e42b6, 0x597f299cfc657e2a, 0x5fcb6fab3ad6faec, 0x6c44198c4a475817,
};

static uint64_t rotr(uint64_t x, int n) { return x >> n | x << (64 - n); }

static void compress(uint64_t h[8], const uint8_t *block)
{
    uint64_t w[80], a = h[0], b = h[1], c = h[2], d = h[3], e = h[4], f = h[5], g = h[6], k = h[7];
    for (int t = 0; t < 16; t++) {
        w[t] = 0;
        for (int i = 0; i < 8; i++)
            w[t] = w[t] << 8 | block[8 * t + i];
    }
    for (int t = 16; t < 80; t++) {
        uint64_t x = w[t - 15], y = w[t - 2];
        w[t] = (rotr(y, 19) ^ rotr(y, 61) ^ y >> 6) + w[t - 7] + (rotr(x, 1) ^ rotr(x, 8) ^ x >> 7) + w[t - 16];
    }
    for (int t = 0; t < 80; t++) {
        uint64_t t1 = k + (rotr(e, 14) ^ rotr(e, 18) ^ rotr(e, 41)) + ((e & f) ^ (~e & g)) + K[t] + w[t];
        uint64_t t2 = (rotr(a, 28) ^ rotr(a, 34) ^ rotr(a, 39)) + ((a & b) ^ (a & c) ^ (b & c));
        k = g, g = f, f = e, e = d + t1, d = c, c = b, b = a, a = t1 + t2;
    }
    h[0] += a, h[1] += b, h[2] += c, h[3] += d, h[4] += e, h[5] += f, h[6] += g, h[7] += k;
}

void plain_sha512(const uint8_t *message, size_t size, uint8_t digest[64])
{
    uint64_t h[8] = {0x6a09e667f3bcc908, 0xbb67ae8584caa73b, 0x3c6ef372fe94f82b, 0xa54ff53a5f1d36f1, 0x510e527fade682d1, 0x9b05688c2b3e6c1f, 0x1f83d9abfb41bd6b, 0x5be0cd19137e2179};
    uint8_t last[256] = {0};
    size_t whole = size / 128 * 128, rest = size - whole, end = rest < 112 ? 128 : 256;
    for (size_t i = 0; i < whole; i += 128)
        compress(h, message + i);
    memcpy(last, message + whole, rest);
    last[rest] = 0x80;
    for (int i = 0; i < 8; i++)
        last[end - 1 - i] = (uint64_t)size * 8 >> 8 * i;
    last[end - 9] = (uint64_t)size >> 61;
    for (size_t i = 0; i < end; i += 128)
        compress(h, last + i);
    for (int i = 0; i < 64; i++)
        digest[i] = h[i / 8] >> (56 - i % 8 * 8);
}

void plain_powers(const struct plain_set *s, uint32_t *powers)
{
    uint64_t x = 1;
    for (size_t i = 0; i < s->n; i++) {
        powers[i] = x;
        x = x * s->g % s->q;
    }
}

/* k + j modulo n, for both below n */
static size_t turned(size_t k, size_t j, size_t n) { return k < n - j ? k + j : k - (n - j); }

/* four terms a turn, as the kit has it: their places do not wait for each other */
void plain_evaluate(const struct plain_set *s, const uint32_t *powers, const int16_t *coefficients, const uint16_t *points, size_t count, uint32_t *out)
{
    uint32_t r[1153];
    size_t n = s->n;
    for (size_t i = 0; i < n; i++) {
        int32_t x = coefficients[i] % (int32_t)s->q;
        r[i] = x < 0 ? x + s->q : (uint32_t)x;
    }
    for (size_t p = 0; p < count; p++) {
        size_t j = points[p], j2 = turned(j, j, n), j3 = turned(j2, j, n), j4 = turned(j3, j, n), k = 0, i = 0;
        uint64_t sum = 0;
        for (; i + 4 <= n; i += 4) {
            sum += (uint64_t)r[i] * powers[k] + (uint64_t)r[i + 1] * powers[turned(k, j, n)] + (uint64_t)r[i + 2] * powers[turned(k, j2, n)]
                   + (uint64_t)r[i + 3] * powers[turned(k, j3, n)];
            k = turned(k, j4, n);
        }
        for (; i < n; i++) {
            sum += (uint64_t)r[i] * powers[k];
            k = turned(k, j, n);
        }
        out[p] = sum % s->q;
    }
}

int32_t plain_centred(const struct plain_set *s, uint32_t value) { return 2 * value <= s->q ? (int32_t)value : (int32_t)value - (int32_t)s->q; }

void plain_point(const struct plain_set *s, const int16_t *f, const int8_t *c, const int16_t *y, int32_t *z)
{
    for (size_t i = 0; i < s->n; i++)
        z[i] = y[i];
    for (size_t i = 0; i < s->n; i++) {
        if (c[i] == 0)
            continue;
        for (size_t k = 0; k < i; k++)
            z[k] += c[i] * f[k + s->n - i];
        for (size_t k = i; k < s->n; k++)
            z[k] += c[i] * f[k - i];
    }
}

int plain_draw(const struct plain_set *s, const uint8_t *pool, int8_t *c)
{
    uint8_t taken[1153] = {0};
    size_t kept = 0;
    memset(c, 0, s->n);
    for (size_t at = 8; at < 512 && kept < s->b; at += 2) {
        uint32_t v = pool[at] << 8 | pool[at + 1], index = v % s->n;
        if (v >= s->n * (65536 / s->n) || taken[index])
            continue;
        taken[index] = 1;
        c[index] = pool[kept / 8] >> kept % 8 & 1 ? -1 : 1;
        kept++;
    }
    return kept == s->b;
}

/* rule 1: the low byte of each evaluation; rule 2: all three, low byte first; how many they are */
static size_t commitment_bytes(const struct plain_set *s, const uint32_t *commitment, uint8_t rule, uint8_t *to)
{
    if (rule == 1) {
        for (size_t i = 0; i < s->t; i++)
            to[i] = commitment[i];
        return s->t;
    }
    for (size_t i = 0; i < s->t; i++)
        to[3 * i] = commitment[i], to[3 * i + 1] = commitment[i] >> 8, to[3 * i + 2] = commitment[i] >> 16;
    return 3 * s->t;
}

int plain_challenge(const struct plain_set *s, const uint32_t *commitment, const uint8_t *message, size_t size, int8_t *c, uint8_t rule)
{
    uint8_t first[3 * 600 + 64], pool[512];
    size_t count = commitment_bytes(s, commitment, rule, first);
    plain_sha512(message, size, first + count);
    plain_sha512(first, count + 64, pool);
    for (int i = 1; i < 8; i++)
        plain_sha512(pool + 64 * (i - 1), 64, pool + 64 * i);
    return plain_draw(s, pool, c);
}

size_t plain_first_outside(const struct plain_set *s, const int32_t *z)
{
    int32_t bound = s->k - s->b;
    size_t i = 0;
    while (i < s->n && -bound <= z[i] && z[i] <= bound)
        i++;
    return i;
}

int plain_sign(const struct plain_set *s, const uint32_t *powers, const uint8_t *secret_key, const uint16_t *points, const int16_t *mask,
               const uint8_t *message, size_t size, uint8_t *signature, uint8_t rule)
{
    int16_t f[1153] = {0};
    int8_t c[1153];
    int32_t z[1153];
    uint32_t commitment[600];
    for (size_t i = 0; i < s->n; i++)
        f[i] = (int8_t)secret_key[1 + i];
    plain_evaluate(s, powers, mask, points, s->t, commitment);
    if (!plain_challenge(s, commitment, message, size, c, rule))
        return 0;
    plain_point(s, f, c, mask, z);
    if (plain_first_outside(s, z) < s->n)
        return 0;
    *signature++ = secret_key[0];
    for (size_t i = 0; i < s->n; i++)
        if (c[i] != 0) {
            *signature++ = i >> 8 | (c[i] < 0 ? 0x80 : 0);
            *signature++ = i;
        }
    for (size_t i = 0; i < s->n; i++) {
        *signature++ = z[i] >> 8;
        *signature++ = z[i];
    }
    return 1;
}

int plain_check(const struct plain_set *s, const uint32_t *powers, const uint8_t *public_key, const uint8_t *message, size_t size,
                const uint8_t *signature, uint8_t rule)
{
    uint16_t points[600];
    uint32_t of_z[600], of_c[600];
    int16_t z[1153], c[1153] = {0};
    int32_t wide[1153];
    int8_t drawn[1153];
    const uint8_t *values = public_key + 1 + 2 * s->t, *point = signature + 1 + 2 * s->b;
    for (size_t i = 0; i < s->t; i++)
        points[i] = public_key[1 + 2 * i] << 8 | public_key[2 + 2 * i];
    for (size_t i = 0; i < s->b; i++)
        c[(signature[1 + 2 * i] & 0x7f) << 8 | signature[2 + 2 * i]] = signature[1 + 2 * i] & 0x80 ? -1 : 1;
    for (size_t i = 0; i < s->n; i++)
        wide[i] = z[i] = (int16_t)(point[2 * i] << 8 | point[2 * i + 1]);
    if (plain_first_outside(s, wide) < s->n)
        return 0;
    plain_evaluate(s, powers, c, points, s->t, of_c);
    plain_evaluate(s, powers, z, points, s->t, of_z);
    for (size_t i = 0; i < s->t; i++) {
        uint64_t v = values[3 * i] << 16 | values[3 * i + 1] << 8 | values[3 * i + 2];
        of_z[i] = (of_z[i] + s->q - v * of_c[i] % s->q) % s->q;
    }
    if (!plain_challenge(s, of_z, message, size, drawn, rule))
        return 0;
    for (size_t i = 0; i < s->n; i++)
        if (drawn[i] != c[i])
            return 0;
    return 1;
}
