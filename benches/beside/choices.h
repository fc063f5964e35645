/*
 * The loops of kinds that divide, slice, encode, choose of frames, repeat a list, count and check frames.
 */
#ifndef CHOICES_H
#define CHOICES_H

#include "loops.h"

MAP(divide_const, int16_t, p == 0 ? 0 : x[n] / p)
MAP(divide, int16_t, y[n] == 0 ? 0 : x[n] / y[n])
LOOP(binary_slicer, int16_t, uint8_t, for (size_t n = 0; n < count; n++) { z[n] = x[n] >= p; })

/* The segment of a magnitude, by its highest bit. */
static inline unsigned segment(unsigned magnitude) { return 24 - (unsigned)__builtin_clz(magnitude | 255); }

static inline uint8_t ulaw(int16_t item) {
    const unsigned size = (unsigned)(item < 0 ? -item : item) + 132, magnitude = size < 32767 ? size : 32767;
    const unsigned s = segment(magnitude);
    return (uint8_t)((s * 16 | (magnitude >> (s + 3) & 15)) ^ (item < 0 ? 127 : 255));
}

static inline uint8_t alaw(int16_t item) {
    const unsigned size = (unsigned)(item < 0 ? -item : item);
    const unsigned magnitude = item >= 0 ? size : size < 8 ? 0 : size - 8, s = segment(magnitude);
    return (uint8_t)((s * 16 | (magnitude >> ((s < 1 ? 1 : s) + 3) & 15)) ^ (item < 0 ? 85 : 213));
}

LOOP(ulaw_encode, int16_t, uint8_t, for (size_t n = 0; n < count; n++) { z[n] = ulaw(x[n]); })
LOOP(alaw_encode, int16_t, uint8_t, for (size_t n = 0; n < count; n++) { z[n] = alaw(x[n]); })

/* Of `count` frames of p items. */
LOOP(frame_minimum, int16_t, int16_t, for (size_t n = 0; n < count; n++, x += p) {
    int16_t least = INT16_MAX;
    for (int k = 0; k < p; k++) {
        least = x[k] < least ? x[k] : least;
    }
    z[n] = least;
})

LOOP(frame_maximum, int16_t, int16_t, for (size_t n = 0; n < count; n++, x += p) {
    int16_t greatest = INT16_MIN;
    for (int k = 0; k < p; k++) {
        greatest = greatest < x[k] ? x[k] : greatest;
    }
    z[n] = greatest;
})

LOOP(argmax, int16_t, int16_t, for (size_t n = 0; n < count; n++, x += p) {
    int16_t greatest = INT16_MIN, place = 0;
    for (int k = 0; k < p; k++) {
        if (greatest < x[k]) {
            greatest = x[k];
            place = (int16_t)k;
        }
    }
    z[n] = place;
})

/* The first p items of the second input again and again. */
LOOP(pattern, int16_t, int16_t, int k = 0; for (size_t n = 0; n < count; n++) {
    z[n] = y[k];
    k = k + 1 == p ? 0 : k + 1;
})

LOOP(counter, int16_t, int16_t, int k = 0; for (size_t n = 0; n < count; n++) {
    z[n] = (int16_t)k;
    k = k + 1 == p ? 0 : k + 1;
})

/* CRC-16/IBM-3740 of a frame. */
static inline unsigned checksum(const uint8_t *frame, int size) {
    unsigned sum = 0xffff;
    for (int k = 0; k < size; k++) {
        sum ^= (unsigned)frame[k] << 8;
        for (int bit = 0; bit < 8; bit++) {
            sum = (sum << 1 ^ (sum & 0x8000 ? 0x1021 : 0)) & 0xffff;
        }
    }
    return sum;
}

/* Of `count` frames of p bytes. */
LOOP(crc_append, uint8_t, uint8_t, for (size_t n = 0; n < count; n++, x += p, z += p + 2) {
    const unsigned sum = checksum(x, p);
    memcpy(z, x, (size_t)p);
    z[p] = (uint8_t)(sum >> 8);
    z[p + 1] = (uint8_t)sum;
})

LOOP(crc_check, uint8_t, uint8_t, for (size_t n = 0; n < count; n++, x += p + 2) { z[n] = checksum(x, p + 2) == 0; })

/* The convolutional code of 1 + D^2 and 1 + D + D^2, whose tables are p numbers long. */
static uint8_t next_states[8] = {0, 2, 0, 2, 1, 3, 1, 3}, outputs[8] = {0, 3, 3, 0, 1, 2, 2, 1};
LOOP(state_machine, uint8_t, uint8_t, unsigned state = 0; for (size_t n = 0; n < count; n++) {
    const unsigned row = 2 * state + x[n] % 2;
    z[n] = outputs[row];
    state = next_states[row];
})

#endif
