/* The functions of crate harness, for tests/ and bench/ alone. A slice is a pointer and its length in elements. Nothing checks what they ask: a digest's `out`
   has 64 bytes; f, c, y and z have one length, at most 1,153, and f and c only -1, 0 and 1; `set` is 0 to 4, `coefficients` has the N numbers of that set,
   `exponents` are below N, in any order, and `out` has as many places as there are of them; `plays` has four numbers for each answer. */
#ifndef HARNESS_H
#define HARNESS_H
#include <stddef.h>
#include <stdint.h>

void harness_sha512(const uint8_t *message, size_t message_length, uint8_t *out);
void harness_sha512_of_two(const uint8_t *first, size_t first_length, const uint8_t *second, size_t second_length, uint8_t *out);
void harness_point(const int16_t *f, size_t f_length, const int8_t *c, size_t c_length, const int16_t *y, size_t y_length, int32_t *z, size_t z_length);
/* the index of the first number outside -bound..bound, or the length where none is outside */
size_t harness_first_outside(const int32_t *z, size_t z_length, uint32_t bound);
size_t harness_first_outside16(const int16_t *values, size_t values_length, uint32_t bound);
/* the plain evaluator at any exponents, each result in signed form */
void harness_evaluate(uint8_t set, const int16_t *coefficients, size_t coefficients_length, const uint16_t *exponents, size_t exponents_length,
                      int32_t *out, size_t out_length);
void harness_plays(const uint8_t *files, size_t files_length, const uint32_t *plays, size_t plays_length, uint8_t *memory, size_t memory_length,
                   uint32_t *answers, size_t answers_length);

#endif
