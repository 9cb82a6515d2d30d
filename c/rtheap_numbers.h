/* rtheap_numbers.h: signed numbers, floats and doubles as numbers below 2^62, which a field holds.
   Each goes there and back unchanged, bit for bit. Inline functions; nothing to link.

       rtheap_from_int(n, &number)    a number from -2^61 to 2^61 - 1, in one field
       rtheap_from_float(f)           a float, in one field
       rtheap_split_double(x, halves) a double, in two fields; so is any int64_t or uint64_t

   A double, and an int64_t beyond 2^61, do not fit in one field. */
#ifndef RTHEAP_NUMBERS_H
#define RTHEAP_NUMBERS_H

#include <stdint.h>
#include <string.h>

#ifndef __cplusplus
#include <stdbool.h>
#endif

/* ---- rtheap_from_int: signed numbers, floats and doubles in fields ---- */

/* Writes the number that stands for n, and returns true; or returns false, as n is below -2^61 or
   2^61 or more. n that are near to 0 become small numbers: 0, -1, 1, -2 become 0, 1, 2, 3. */
static inline bool rtheap_from_int(int64_t n, uint64_t *number) {
    const int64_t most = (INT64_C(1) << 61) - 1;
    int64_t coded;
    if (n < -most - 1 || n > most) return false;
    coded = n < 0 ? -2 * n - 1 : 2 * n;
    memcpy(number, &coded, sizeof coded);
    return true;
}

/* The n of such a number. */
static inline int64_t rtheap_to_int(uint64_t number) {
    const uint64_t bits = number / 2;
    int64_t half;
    memcpy(&half, &bits, sizeof half);
    return number % 2 ? -half - 1 : half;
}

/* A float in the lowest 32 bits of a number, and back. */
static inline uint64_t rtheap_from_float(float f) {
    uint32_t bits;
    memcpy(&bits, &f, sizeof bits);
    return bits;
}

static inline float rtheap_to_float(uint64_t number) {
    const uint32_t bits = number & UINT32_MAX;
    float f;
    memcpy(&f, &bits, sizeof f);
    return f;
}

/* 64 bits as two numbers below 2^32, the higher half first, and back. */
static inline void rtheap_split_bits(uint64_t bits, uint64_t halves[2]) {
    halves[0] = bits >> 32;
    halves[1] = bits & UINT32_MAX;
}

static inline uint64_t rtheap_join_bits(const uint64_t halves[2]) {
    return halves[0] << 32 | (halves[1] & UINT32_MAX);
}

/* The same with the bits of a double. */
static inline void rtheap_split_double(double x, uint64_t halves[2]) {
    uint64_t bits;
    memcpy(&bits, &x, sizeof bits);
    rtheap_split_bits(bits, halves);
}

static inline double rtheap_join_double(const uint64_t halves[2]) {
    const uint64_t bits = rtheap_join_bits(halves);
    double x;
    memcpy(&x, &bits, sizeof x);
    return x;
}

#endif
