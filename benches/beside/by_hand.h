/*
 * Loops by hand with AVX2's intrinsics that do what kinds do a byte at a time: scramblers by words of 64 bits, sums by
 * sixteen, tables by shuffles; and filters that keep one output of several. Counts are multiples of 64.
 */
#ifndef BY_HAND_H
#define BY_HAND_H

#include "filters.h"

/* The lowest bits of 64 bytes, the first byte's lowest, and bytes of such bits. */
static inline uint64_t packed_bits(const uint8_t *x) {
    const uint32_t low = (uint32_t)_mm256_movemask_epi8(_mm256_slli_epi16(load(x), 7));
    const uint32_t high = (uint32_t)_mm256_movemask_epi8(_mm256_slli_epi16(load(x + 32), 7));
    return low | (uint64_t)high << 32;
}

static inline void store_bits(uint32_t bits, uint8_t *z) {
    const __m256i bytes = _mm256_set_epi64x(0x0303030303030303, 0x0202020202020202, 0x0101010101010101, 0);
    const __m256i place = _mm256_set1_epi64x((int64_t)0x8040201008040201);
    const __m256i each = _mm256_and_si256(_mm256_shuffle_epi8(_mm256_set1_epi32((int)bits), bytes), place);
    _mm256_storeu_si256((__m256i *)z, _mm256_min_epu8(each, _mm256_set1_epi8(1)));
}

/* The places of a mask, the newest bit's 1, and the register as the newest bits of a word. */
struct places {
    int count, place[32];
    uint64_t last;
};

static inline struct places places_of(int mask, unsigned word) {
    struct places places = {0};
    for (int j = 1; j <= 32; j++) {
        if (mask >> (j - 1) & 1) {
            places.place[places.count++] = j;
        }
        places.last |= (uint64_t)(word >> (j - 1) & 1) << (64 - j);
    }
    return places;
}

/* 64 steps at once. Over two, 1 / (1 + P) is (1 + P) (1 + P^2) (1 + P^4) .. of 64 bits, and P^2 has P's places doubled. */
static inline uint64_t solved(const struct places *places, uint64_t bits) {
    for (int k = 0; k < places->count; k++) {
        bits ^= places->last >> (64 - places->place[k]);
    }
    for (int times = 1; places->place[0] * times < 64; times *= 2) {
        const uint64_t before = bits;
        for (int k = 0; k < places->count && places->place[k] * times < 64; k++) {
            bits ^= before << places->place[k] * times;
        }
    }
    return bits;
}

LOOP(scrambler_by_hand, uint8_t, uint8_t, struct places places = places_of(p, 1); for (size_t n = 0; n < count; n += 64) {
    places.last = solved(&places, packed_bits(x + n));
    store_bits((uint32_t)places.last, z + n);
    store_bits((uint32_t)(places.last >> 32), z + n + 32);
})

LOOP(additive_scrambler_by_hand, uint8_t, uint8_t, struct places places = places_of(p, 1); for (size_t n = 0; n < count; n += 64) {
    places.last = solved(&places, 0);
    const uint64_t bits = places.last ^ packed_bits(x + n);
    store_bits((uint32_t)bits, z + n);
    store_bits((uint32_t)(bits >> 32), z + n + 32);
})

LOOP(descrambler_by_hand, uint8_t, uint8_t, struct places places = places_of(p, 1); for (size_t n = 0; n < count; n += 64) {
    const uint64_t now = packed_bits(x + n);
    uint64_t bits = now;
    for (int k = 0; k < places.count; k++) {
        bits ^= places.last >> (64 - places.place[k]) ^ now << places.place[k];
    }
    places.last = now;
    store_bits((uint32_t)bits, z + n);
    store_bits((uint32_t)(bits >> 32), z + n + 32);
})

/* Sums of all bytes modulo a power of two. */
LOOP(diff_encoder_by_hand, uint8_t, uint8_t, __m128i sum = _mm_setzero_si128(); for (size_t n = 0; n < count; n += 16) {
    __m128i bytes = _mm_loadu_si128((const __m128i *)(x + n));
    bytes = _mm_add_epi8(bytes, _mm_slli_si128(bytes, 1));
    bytes = _mm_add_epi8(bytes, _mm_slli_si128(bytes, 2));
    bytes = _mm_add_epi8(bytes, _mm_slli_si128(bytes, 4));
    bytes = _mm_add_epi8(sum, _mm_add_epi8(bytes, _mm_slli_si128(bytes, 8)));
    sum = _mm_shuffle_epi8(bytes, _mm_set1_epi8(15));
    _mm_storeu_si128((__m128i *)(z + n), _mm_and_si128(bytes, _mm_set1_epi8((char)(p - 1))));
})

/* The table is the second input and has p entries, in rows of sixteen; bytes past its end stay as they are. */
LOOP(map_bb_by_hand, uint8_t, uint8_t, for (size_t n = 0; n < count; n += 64) {
    __m256i first = load(x + n), second = load(x + n + 32);
    const __m256i nibble = _mm256_set1_epi8(15), low = _mm256_and_si256(first, nibble), next_low = _mm256_and_si256(second, nibble);
    const __m256i high = _mm256_sub_epi8(first, low), next_high = _mm256_sub_epi8(second, next_low);
    for (int row = 0; row < p; row += 16) {
        const __m256i here = _mm256_set1_epi8((char)row), entries = _mm256_broadcastsi128_si256(_mm_loadu_si128((const __m128i *)(y + row)));
        first = _mm256_blendv_epi8(first, _mm256_shuffle_epi8(entries, low), _mm256_cmpeq_epi8(high, here));
        second = _mm256_blendv_epi8(second, _mm256_shuffle_epi8(entries, next_low), _mm256_cmpeq_epi8(next_high, here));
    }
    _mm256_storeu_si256((__m256i *)(z + n), first);
    _mm256_storeu_si256((__m256i *)(z + n + 32), second);
})

/* One output of q by the sum of p products, a multiple of 8, in lanes of 64 bits: as a dot of the program goes. */
static inline __m256i four_wide(const int16_t *x) {
    return _mm256_cvtepi16_epi64(_mm_loadl_epi64((const __m128i *)x));
}

static inline int64_t total(__m256i sums) {
    const __m128i two = _mm_add_epi64(_mm256_castsi256_si128(sums), _mm256_extracti128_si256(sums, 1));
    return _mm_cvtsi128_si64(two) + _mm_extract_epi64(two, 1);
}

static inline int64_t dot_of_lanes(const int16_t *h, const int16_t *x, int count) {
    __m256i even = _mm256_setzero_si256(), odd = even;
    for (int k = 0; k < count; k += 8) {
        even = _mm256_add_epi64(even, _mm256_mul_epi32(four_wide(h + k), four_wide(x + k)));
        odd = _mm256_add_epi64(odd, _mm256_mul_epi32(four_wide(h + k + 4), four_wide(x + k + 4)));
    }
    return total(_mm256_add_epi64(even, odd));
}

/* The same where neighbours' products are added in 32 bits, which no two of them may exceed, and then widened. */
static inline int64_t dot_of_pairs(const int16_t *h, const int16_t *x, int count) {
    __m256i sums = _mm256_setzero_si256();
    for (int k = 0; k < count; k += 8) {
        const __m128i taps = _mm_loadu_si128((const __m128i *)(h + k)), items = _mm_loadu_si128((const __m128i *)(x + k));
        sums = _mm256_add_epi64(sums, _mm256_cvtepi32_epi64(_mm_madd_epi16(taps, items)));
    }
    return total(sums);
}

/* The taps lie the last first, as their items do. */
#define KEPT(name, dot)                                                                                \
    LOOP(name, int16_t, int16_t, int16_t turned[TAPS]; for (int j = 0; j < p; j++) {                   \
        turned[j] = light[p - 1 - j];                                                                  \
    } for (size_t n = 0; n < count; n++) {                                                             \
        z[n] = (int16_t)capped(rounded(dot(turned, x + (size_t)q * n, p), SHIFT), INT16_MIN, INT16_MAX); \
    })
KEPT(fir_kept_by_lanes, dot_of_lanes)
KEPT(fir_kept_by_pairs, dot_of_pairs)

LOOP(fir_kept, int16_t, int16_t, for (size_t n = 0; n < count; n++) {
    int64_t sum = 0;
    for (int j = 0; j < p; j++) {
        sum += (int64_t)light[j] * x[(size_t)q * n + (size_t)(p - 1 - j)];
    }
    z[n] = (int16_t)capped(rounded(sum, SHIFT), INT16_MIN, INT16_MAX);
})

/* Every other output of p light taps: two items lie as two taps meet them. */
LOOP(fir_halved_by_hand, int16_t, int16_t, for (size_t at = 0; at + 32 <= count; at += 32) {
    struct sums a = {0}, b = {0};
    for (int j = 0; j < p; j += 2) {
        const int16_t *from = x + 2 * at + (size_t)(p - 2 - j);
        const __m256i pair = pair_of(light + j);
        a.even = _mm256_add_epi32(a.even, _mm256_madd_epi16(pair, load(from)));
        a.odd = _mm256_add_epi32(a.odd, _mm256_madd_epi16(pair, load(from + 16)));
        b.even = _mm256_add_epi32(b.even, _mm256_madd_epi16(pair, load(from + 32)));
        b.odd = _mm256_add_epi32(b.odd, _mm256_madd_epi16(pair, load(from + 48)));
    }
    store_in_order(rounded_sums(a.even), rounded_sums(a.odd), z + at);
    store_in_order(rounded_sums(b.even), rounded_sums(b.odd), z + at + 16);
})

#endif
