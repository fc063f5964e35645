/*
 * Filters: the loop that the definition suggests, and three by hand. Two are of an even number of taps, for 32 shorts at
 * a time: neighbouring products are summed at once in lanes of 32 bits, of light taps, whose distances from 0 sum up to
 * less than 2^16, or of the two halves of each tap. The third is for 32 ints at a time: lanes of 64 bits have the
 * products of every other one, which are multiplied where they lie.
 */
#ifndef FILTERS_H
#define FILTERS_H

#include <immintrin.h>

#include "loops.h"

enum { TAPS = 256, SHIFT = 15, LIGHT = 128 };

static int16_t taps[TAPS], light[TAPS], high[TAPS], low[TAPS];

static void make_taps(const int16_t *noise) {
    for (int k = 0; k < TAPS; k++) {
        taps[k] = noise[k];
        light[k] = taps[k] / LIGHT;
        high[k] = (int16_t)((taps[k] + 128) >> 8);
        low[k] = (int16_t)(taps[k] - 256 * high[k]);
    }
}

/* `p` taps, light ones where `q` says so. */
#define FIR(name, T, LEAST, MOST)                                                                       \
    LOOP(name, T, T, const int16_t *h = q == LIGHT ? light : taps; for (size_t n = 0; n < count; n++) { \
        int64_t sum = 0;                                                                                \
        for (int j = 0; j < p; j++) {                                                                   \
            sum += (int64_t)h[j] * x[n + (size_t)(p - 1 - j)];                                          \
        }                                                                                               \
        z[n] = (T)capped(rounded(sum, SHIFT), LEAST, MOST);                                             \
    })
FIR(fir_shorts, int16_t, INT16_MIN, INT16_MAX)
FIR(fir_ints, int32_t, INT32_MIN, INT32_MAX)

#define DOT(name, T)                                                    \
    LOOP(name, T, int64_t, int64_t sum = 0;                             \
         for (size_t n = 0; n < count; n++) { sum += (int64_t)taps[n] * x[n]; } *z = sum;)
DOT(dot_shorts, int16_t)
DOT(dot_ints, int32_t)

/* Two sums at each of sixteen outputs: at the even ones and at the odd ones. */
struct sums {
    __m256i even, odd;
};

static inline __m256i load(const void *x) { return _mm256_loadu_si256((const __m256i *)x); }

static inline __m256i pair_of(const int16_t *h) {
    return _mm256_set1_epi32((int)((uint16_t)h[1] | (uint32_t)(uint16_t)h[0] << 16));
}

static inline struct sums with_pair(struct sums sums, const int16_t *h, const int16_t *x) {
    const __m256i pair = pair_of(h);
    sums.even = _mm256_add_epi32(sums.even, _mm256_madd_epi16(pair, load(x)));
    sums.odd = _mm256_add_epi32(sums.odd, _mm256_madd_epi16(pair, load(x + 1)));
    return sums;
}

static inline void store(__m256i even, __m256i odd, int16_t *z) {
    const __m256i lower = _mm256_unpacklo_epi32(even, odd), upper = _mm256_unpackhi_epi32(even, odd);
    _mm256_storeu_si256((__m256i *)z, _mm256_packs_epi32(lower, upper));
}

static inline void store_in_order(__m256i first, __m256i second, int16_t *z) {
    _mm256_storeu_si256((__m256i *)z, _mm256_permute4x64_epi64(_mm256_packs_epi32(first, second), 0xD8));
}

static inline __m256i rounded_sums(__m256i sums) {
    return _mm256_srai_epi32(_mm256_add_epi32(sums, _mm256_set1_epi32(1 << (SHIFT - 1))), SHIFT);
}

static inline void store_light(struct sums sums, int16_t *z) { store(rounded_sums(sums.even), rounded_sums(sums.odd), z); }

/* The sums 256 a + b over 2^SHIFT, rounded. With b + half = 256 t + r and r from 0 to 255 that is a + t over 2^(SHIFT -
 * 8), rounded down: r is too small to matter. */
static inline __m256i joined(__m256i a, __m256i b) {
    const __m256i half = _mm256_set1_epi32(1 << (SHIFT - 1));
    const __m256i t = _mm256_srai_epi32(_mm256_add_epi32(b, half), 8);
    return _mm256_srai_epi32(_mm256_add_epi32(a, t), SHIFT - 8);
}

LOOP(fir_light_by_hand, int16_t, int16_t, for (size_t at = 0; at + 32 <= count; at += 32) {
    struct sums a = {0}, b = {0};
    for (int j = 0; j < p; j += 2) {
        const int16_t *from = x + at + (size_t)(p - 2 - j);
        a = with_pair(a, light + j, from);
        b = with_pair(b, light + j, from + 16);
    }
    store_light(a, z + at);
    store_light(b, z + at + 16);
})

LOOP(fir_by_hand, int16_t, int16_t, for (size_t at = 0; at + 32 <= count; at += 32) {
    struct sums a = {0}, b = {0}, c = {0}, d = {0};
    for (int j = 0; j < p; j += 2) {
        const int16_t *from = x + at + (size_t)(p - 2 - j);
        a = with_pair(a, high + j, from);
        b = with_pair(b, low + j, from);
        c = with_pair(c, high + j, from + 16);
        d = with_pair(d, low + j, from + 16);
    }
    store(joined(a.even, b.even), joined(a.odd, b.odd), z + at);
    store(joined(c.even, d.even), joined(c.odd, d.odd), z + at + 16);
})

/* The sums over 2^SHIFT, rounded, and the nearest numbers that ints have. AVX2 shifts no sign into lanes of 64 bits. */
static inline __m256i nearest_ints(__m256i sums) {
    const __m256i half = _mm256_set1_epi64x(1 << (SHIFT - 1)), top = _mm256_set1_epi64x((int64_t)1 << (63 - SHIFT));
    const __m256i least = _mm256_set1_epi64x(INT32_MIN), most = _mm256_set1_epi64x(INT32_MAX);
    const __m256i positive = _mm256_srli_epi64(_mm256_add_epi64(sums, half), SHIFT);
    const __m256i numbers = _mm256_sub_epi64(_mm256_xor_si256(positive, top), top);
    const __m256i raised = _mm256_blendv_epi8(numbers, least, _mm256_cmpgt_epi64(least, numbers));
    return _mm256_blendv_epi8(raised, most, _mm256_cmpgt_epi64(raised, most));
}

LOOP(fir_ints_by_hand, int32_t, int32_t, for (size_t at = 0; at + 32 <= count; at += 32) {
    __m256i even[4] = {0}, odd[4] = {0};
    for (int j = 0; j < p; j++) {
        const __m256i tap = _mm256_set1_epi64x(taps[j]);
        const int32_t *from = x + at + (size_t)(p - 1 - j);
        for (int k = 0; k < 4; k++) {
            even[k] = _mm256_add_epi64(even[k], _mm256_mul_epi32(tap, load(from + 8 * k)));
            odd[k] = _mm256_add_epi64(odd[k], _mm256_mul_epi32(tap, load(from + 8 * k + 1)));
        }
    }
    for (int k = 0; k < 4; k++) {
        const __m256i upper = _mm256_slli_epi64(nearest_ints(odd[k]), 32);
        _mm256_storeu_si256((__m256i *)(z + at + 8 * k), _mm256_blend_epi32(nearest_ints(even[k]), upper, 0xAA));
    }
})

#endif
