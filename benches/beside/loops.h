/*
 * The loops that the definitions of kinds suggest, each over `count` items or groups and with two numbers of its own,
 * and memcpy.
 */
#ifndef LOOPS_H
#define LOOPS_H

#include <stddef.h>
#include <stdint.h>
#include <string.h>

typedef void loop(size_t count, int p, int q, const void *first, const void *second, void *out, void *other);

/* A loop from items `x` and `y` of type T to items `z` and `w` of type U, which no caller's constants are compiled
 * into. */
#define LOOP(name, T, U, ...)                                                                                                                              \
    __attribute__((noipa)) static void name(size_t count, int p, int q, const void *restrict first, const void *restrict second, void *restrict out,       \
                                            void *restrict other) {                                                                                        \
        const T *x = first, *y = second;                                                                                                                   \
        U *z = out, *w = other;                                                                                                                            \
        (void)p, (void)q, (void)x, (void)y, (void)z, (void)w;                                                                                              \
        __VA_ARGS__                                                                                                                                        \
    }
/* One that gives an item for each item, by an expression of the item's number `n`. */
#define MAP(name, T, ...) LOOP(name, T, T, for (size_t n = 0; n < count; n++) { z[n] = (T)(__VA_ARGS__); })

/* Over `2 ^ shift`, a half upwards, and the nearest number that a type has. */
static inline int64_t rounded(int64_t sum, int shift) { return (sum + ((INT64_C(1) << shift) >> 1)) >> shift; }
static inline int64_t capped(int64_t n, int64_t least, int64_t most) { return n < least ? least : n > most ? most : n; }

LOOP(copy, uint8_t, uint8_t, memcpy(z, x, count);)
MAP(add_const, uint8_t, x[n] + p)
MAP(add_const_short, uint16_t, x[n] + p)
MAP(add_const_int, uint32_t, x[n] + (uint32_t)p)
MAP(multiply_const, uint8_t, x[n] * p)
MAP(multiply_const_int, uint32_t, x[n] * (uint32_t)p)
MAP(scale, uint8_t, capped(rounded((int64_t)x[n] * p, q), 0, 255))
MAP(scale_int, int32_t, capped(rounded((int64_t)x[n] * p, q), INT32_MIN, INT32_MAX))
MAP(add, uint8_t, x[n] + y[n])
MAP(and, uint8_t, x[n] & y[n])
MAP(xor, uint8_t, x[n] ^ y[n])
MAP(multiply, uint8_t, x[n] * y[n])
MAP(multiply_int, uint32_t, x[n] * y[n])
MAP(maximum, uint8_t, x[n] < y[n] ? y[n] : x[n])
/* The table is the second input. */
MAP(map_bb, uint8_t, y[x[n]])

LOOP(interleave, uint8_t, uint8_t, for (size_t n = 0; n < count; n++) {
    z[2 * n] = x[n];
    z[2 * n + 1] = y[n];
})

LOOP(deinterleave, uint8_t, uint8_t, for (size_t n = 0; n < count; n++) {
    z[n] = x[2 * n];
    w[n] = x[2 * n + 1];
})

LOOP(repeat, uint8_t, uint8_t, for (size_t n = 0; n < count; n++) {
    for (int k = 0; k < p; k++) {
        *z++ = x[n];
    }
})

LOOP(stream_mux, uint8_t, uint8_t, for (size_t n = 0; n < count; n++) {
    for (int k = 0; k < p; k++) {
        *z++ = *x++;
    }
    for (int k = 0; k < q; k++) {
        *z++ = *y++;
    }
})

LOOP(sample_and_hold, int16_t, int16_t, int16_t held = 0; for (size_t n = 0; n < count; n++) {
    held = y[n] != 0 ? x[n] : held;
    z[n] = held;
})

LOOP(pack_k_bits, uint8_t, uint8_t, for (size_t n = 0; n < count; n++) {
    unsigned packed = 0;
    for (int k = 0; k < p; k++) {
        packed = packed << 1 | (*x++ & 1);
    }
    z[n] = (uint8_t)packed;
})

LOOP(unpack_k_bits, uint8_t, uint8_t, for (size_t n = 0; n < count; n++) {
    for (int k = p - 1; k >= 0; k--) {
        *z++ = x[n] >> k & 1;
    }
})

LOOP(diff_encoder, uint8_t, uint8_t, unsigned sum = 0; for (size_t n = 0; n < count; n++) {
    sum = (sum + x[n]) % (unsigned)p;
    z[n] = (uint8_t)sum;
})

/* Registers whose bits in `p` are summed, and in `q` kept. */
static inline unsigned summed(unsigned word, int mask) {
    return (unsigned)__builtin_popcount(word & (unsigned)mask) & 1;
}

LOOP(scrambler, uint8_t, uint8_t, unsigned word = 1; for (size_t n = 0; n < count; n++) {
    const unsigned bit = (x[n] ^ summed(word, p)) & 1;
    z[n] = (uint8_t)bit;
    word = (word << 1 | bit) & (unsigned)q;
})

LOOP(descrambler, uint8_t, uint8_t, unsigned word = 1; for (size_t n = 0; n < count; n++) {
    z[n] = (x[n] ^ summed(word, p)) & 1;
    word = (word << 1 | (x[n] & 1)) & (unsigned)q;
})

LOOP(additive_scrambler, uint8_t, uint8_t, unsigned word = 1; for (size_t n = 0; n < count; n++) {
    const unsigned bit = summed(word, p);
    z[n] = (x[n] ^ bit) & 1;
    word = (word << 1 | bit) & (unsigned)q;
})

/* The code of the polynomials 171 and 133 in `count` blocks of 256 bits, each of which begins in state 0 and has four
 * metrics for each bit. */
enum { STATES = 64, STEPS = 256, OUTPUTS = 4 };

/* What the code gives of the newest bit and a state of six bits before it. */
static inline unsigned given(unsigned bits) { return 2 * summed(bits, 0171) + summed(bits, 0133); }

static inline void decode(const uint8_t *metrics, const uint8_t *outputs, uint8_t *bits) {
    static uint8_t odd[STEPS][STATES];
    uint32_t sums[STATES], after[STATES];
    unsigned state = 0;
    for (int k = 0; k < STATES; k++) {
        sums[k] = k == 0 ? 0 : 1 << 20;
    }
    for (int step = 0; step < STEPS; step++, metrics += OUTPUTS) {
        for (unsigned to = 0; to < STATES; to++) {
            const unsigned bit = to / 32, from = to % 32 * 2;
            const uint32_t even = sums[from] + metrics[outputs[2 * from + bit]], later = sums[from + 1] + metrics[outputs[2 * from + 2 + bit]];
            after[to] = later < even ? later : even;
            odd[step][to] = later < even;
        }
        memcpy(sums, after, sizeof sums);
    }
    for (unsigned k = 1; k < STATES; k++) {
        state = sums[k] < sums[state] ? k : state;
    }
    for (int step = STEPS - 1; step >= 0; step--) {
        bits[step] = state >= 32;
        state = state % 32 * 2 + odd[step][state];
    }
}

LOOP(viterbi, uint8_t, uint8_t, uint8_t outputs[2 * STATES]; for (unsigned k = 0; k < 2 * STATES; k++) { outputs[k] = (uint8_t)given(k % 2 * 64 + k / 2); }
     for (size_t n = 0; n < count; n++) { decode(x + n * STEPS * OUTPUTS, outputs, z + n * STEPS); })

#endif
