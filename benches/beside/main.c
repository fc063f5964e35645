/*
 * What the kernels and kinds of kernel_bench are measured beside: the loops in C that their definitions suggest,
 * filters by hand with AVX2's intrinsics, memcpy, and VOLK where it is asked for. It prints nanoseconds for each item,
 * the least of many rounds in which the rows take turns.
 *
 *     gcc -O3 -march=x86-64-v3 benches/beside/main.c -o beside
 *     gcc -O3 -march=x86-64-v3 -DVOLK benches/beside/main.c -o beside -lvolk
 */
#include <stdio.h>
#include <stdlib.h>
#include <string.h>
#include <time.h>

#include "by_hand.h"
#include "choices.h"
#include "filters.h"
#include "loops.h"
#ifdef VOLK
#include "vectors.h"
#endif

enum { ROUNDS = 80, ROUND_TIME = 200000, FAR = 262144 };

/* A loop with its count and its two numbers, and by how many items its time is divided. */
struct row {
    const char *name;
    loop *run;
    size_t count;
    int p, q;
    size_t items;
};

/* Inputs and outputs lie so that no load has the low twelve bits of a store shortly before it: the processor would have
 * it wait. */
enum { ROOM = FAR + 4096 };
static _Alignas(4096) uint8_t memory[5 * ROOM];
static uint8_t *const out = memory, *const other = memory + ROOM + 512, *const wanted = memory + 2 * ROOM;
static uint8_t *const second = memory + 3 * ROOM + 1024, *const first = memory + 4 * ROOM + 2048;

static struct row rows[] = {
    {"memcpy, 4 KiB", copy, 4096, 0, 0, 4096},
    {"memcpy, 256 KiB", copy, FAR, 0, 0, FAR},
    {"add_const byte", add_const, 4096, 10, 0, 4096},
    {"add_const byte, 256 KiB", add_const, FAR, 10, 0, FAR},
    {"add_const short, 4 KiB", add_const_short, 2048, 10, 0, 2048},
    {"add_const short, 256 KiB", add_const_short, FAR / 2, 10, 0, FAR / 2},
    {"add_const int, 4 KiB", add_const_int, 1024, 10, 0, 1024},
    {"add_const int, 256 KiB", add_const_int, FAR / 4, 10, 0, FAR / 4},
    {"multiply_const byte", multiply_const, 4096, 3, 0, 4096},
    {"multiply_const int", multiply_const_int, 4096, 3, 0, 4096},
    {"scale byte", scale, 4096, 181, 7, 4096},
    {"scale int", scale_int, 4096, -181, 7, 4096},
    {"add byte", add, 4096, 0, 0, 4096},
    {"and byte", and, 4096, 0, 0, 4096},
    {"xor byte", xor, 4096, 0, 0, 4096},
    {"multiply byte", multiply, 4096, 0, 0, 4096},
    {"multiply int", multiply_int, 4096, 0, 0, 4096},
    {"maximum byte", maximum, 4096, 0, 0, 4096},
    {"map_bb byte", map_bb, 4096, 0, 0, 4096},
    {"map_bb byte, 16 entries by hand", map_bb_by_hand, 4096, 16, 0, 4096},
    {"map_bb byte, 64 entries by hand", map_bb_by_hand, 4096, 64, 0, 4096},
    {"map_bb byte, 128 entries by hand", map_bb_by_hand, 4096, 128, 0, 4096},
    {"map_bb byte, 256 entries by hand", map_bb_by_hand, 4096, 256, 0, 4096},
    {"interleave byte 2", interleave, 2048, 0, 0, 4096},
    {"deinterleave byte 2", deinterleave, 2048, 0, 0, 4096},
    {"repeat byte 8", repeat, 512, 8, 0, 4096},
    {"repeat byte 3", repeat, 1365, 3, 0, 4096},
    {"repeat byte 20", repeat, 204, 20, 0, 4096},
    {"stream_mux byte 12 4", stream_mux, 256, 12, 4, 4096},
    {"stream_mux byte 2 3", stream_mux, 819, 2, 3, 4096},
    {"sample_and_hold short", sample_and_hold, 4096, 0, 0, 4096},
    {"pack_k_bits byte 8", pack_k_bits, 512, 8, 0, 4096},
    {"unpack_k_bits byte 8", unpack_k_bits, 512, 8, 0, 4096},
    {"diff_encoder byte 4", diff_encoder, 4096, 4, 0, 4096},
    {"diff_encoder byte 4, by hand", diff_encoder_by_hand, 4096, 4, 0, 4096},
    {"diff_encoder byte 10", diff_encoder, 4096, 10, 0, 4096},
    {"scrambler byte 7 bits", scrambler, 4096, 72, 127, 4096},
    {"scrambler byte 7 bits, by hand", scrambler_by_hand, 4096, 72, 127, 4096},
    {"descrambler byte 7 bits", descrambler, 4096, 72, 127, 4096},
    {"descrambler byte 7 bits, by hand", descrambler_by_hand, 4096, 72, 127, 4096},
    {"additive_scrambler byte 7 bits", additive_scrambler, 4096, 72, 127, 4096},
    {"additive_scrambler byte 7 bits, by hand", additive_scrambler_by_hand, 4096, 72, 127, 4096},
    {"divide_const short", divide_const, 4096, -7, 0, 4096},
    {"divide short", divide, 4096, 0, 0, 4096},
    {"binary_slicer short byte", binary_slicer, 4096, 3, 0, 4096},
    {"ulaw_encode short byte", ulaw_encode, 4096, 0, 0, 4096},
    {"alaw_encode short byte", alaw_encode, 4096, 0, 0, 4096},
    {"frame_minimum short 32", frame_minimum, 128, 32, 0, 4096},
    {"frame_maximum short 32", frame_maximum, 128, 32, 0, 4096},
    {"argmax short 32", argmax, 128, 32, 0, 4096},
    {"pattern short 7", pattern, 4096, 7, 0, 4096},
    {"counter short 1000", counter, 4096, 1000, 0, 4096},
    {"crc_append byte 126 16", crc_append, 32, 126, 0, 4096},
    {"crc_check byte 126 16", crc_check, 32, 126, 0, 4096},
    {"state_machine byte 2 8", state_machine, 4096, 0, 0, 4096},
    {"viterbi byte 64 states", viterbi, 4, 0, 0, 4096},
#define FILTERS(taps)                                                         \
    {"shorts, " #taps " taps, by hand, light", fir_light_by_hand, 1024, taps, LIGHT, 1024}, \
        {"shorts, " #taps " taps, by hand, halves", fir_by_hand, 1024, taps, 1, 1024},      \
        {"shorts, " #taps " taps", fir_shorts, 1024, taps, 1, 1024},                        \
        {"ints, " #taps " taps, by hand", fir_ints_by_hand, 1024, taps, 1, 1024},           \
        {"ints, " #taps " taps", fir_ints, 1024, taps, 1, 1024}
    FILTERS(8),
    FILTERS(16),
    FILTERS(64),
    FILTERS(256),
#define KEEPING(taps, q)                                                                                       \
    {"shorts, " #taps " light taps, one of " #q " by hand", fir_kept_by_lanes, 1024, taps, q, 1024},         \
        {"shorts, " #taps " light taps, one of " #q " by pairs", fir_kept_by_pairs, 1024, taps, q, 1024},    \
        {"shorts, " #taps " light taps, one of " #q, fir_kept, 1024, taps, q, 1024}
    KEEPING(8, 2),
    KEEPING(8, 8),
    KEEPING(16, 2),
    KEEPING(64, 2),
    KEEPING(64, 8),
    KEEPING(256, 8),
    {"shorts, 8 light taps, one of 2 where they lie", fir_halved_by_hand, 1024, 8, 2, 1024},
    {"shorts, 16 light taps, one of 2 where they lie", fir_halved_by_hand, 1024, 16, 2, 1024},
    {"shorts, 64 light taps, one of 2 where they lie", fir_halved_by_hand, 1024, 64, 2, 1024},
    {"shorts, a dot of 64", dot_shorts, 64, 0, 0, 1},
    {"ints, a dot of 64", dot_ints, 64, 0, 0, 1},
#ifdef VOLK
    {"VOLK, floats, 8 taps", volk_fir, 1024, 8, 0, 1024},
    {"VOLK, floats, 16 taps", volk_fir, 1024, 16, 0, 1024},
    {"VOLK, floats, 64 taps", volk_fir, 1024, 64, 0, 1024},
    {"VOLK, floats, 256 taps", volk_fir, 1024, 256, 0, 1024},
    {"VOLK, and of 32 bits", volk_and, 1024, 0, 0, 1024},
    {"VOLK, or of 32 bits", volk_or, 1024, 0, 0, 1024},
    {"VOLK, add of floats", volk_add, 1024, 0, 0, 1024},
    {"VOLK, multiply of floats", volk_multiply, 1024, 0, 0, 1024},
    {"VOLK, multiply_const of floats", volk_multiply_const, 1024, 3, 0, 1024},
    {"VOLK, maximum of floats", volk_maximum, 1024, 0, 0, 1024},
    {"VOLK, viterbi of 64 states, a bit", volk_viterbi, 2048, 0, 0, 1024},
#endif
};

enum { COUNT = sizeof rows / sizeof rows[0] };
static long calls[COUNT];
static double least[COUNT];

static double now(void) {
    struct timespec t;
    clock_gettime(CLOCK_MONOTONIC, &t);
    return (double)t.tv_sec * 1e9 + (double)t.tv_nsec;
}

static double time_of(const struct row *row, long calls) {
    const double start = now();
    for (long call = 0; call < calls; call++) {
        row->run(row->count, row->p, row->q, first, second, out, other);
    }
    return (now() - start) / (double)calls;
}

/* Whether a loop by hand gives what a plain one does, of so many bytes. */
static int is_same(loop *plain, loop *by_hand, size_t count, int p, int q, size_t bytes) {
    plain(count, p, q, first, second, wanted, other);
    by_hand(count, p, q, first, second, out, other);
    return memcmp(wanted, out, bytes) == 0;
}

/* Whether all of them do: filters with few taps and many, registers of several lengths. */
static int is_right(void) {
    static const int masks[] = {72, 65, 1, 64, 0x4001, 0x12000, 0x40000001};
    int right = 1;
    for (int taps = 2; taps <= 256; taps += 2) {
        right &= is_same(fir_shorts, fir_by_hand, 1024, taps, 1, 2048);
        right &= is_same(fir_shorts, fir_light_by_hand, 1024, taps, LIGHT, 2048);
        right &= is_same(fir_ints, fir_ints_by_hand, 1024, taps, 1, 4096);
        right &= is_same(fir_kept, fir_halved_by_hand, 1024, taps, 2, 2048);
    }
    for (int taps = 8; taps <= 256; taps += 8) {
        right &= is_same(fir_kept, fir_kept_by_lanes, 1024, taps, 5, 2048);
        right &= is_same(fir_kept, fir_kept_by_pairs, 1024, taps, 5, 2048);
    }
    for (size_t k = 0; k < sizeof masks / sizeof masks[0]; k++) {
        right &= is_same(scrambler, scrambler_by_hand, 4096, masks[k], INT32_MAX, 4096);
        right &= is_same(descrambler, descrambler_by_hand, 4096, masks[k], INT32_MAX, 4096);
        right &= is_same(additive_scrambler, additive_scrambler_by_hand, 4096, masks[k], INT32_MAX, 4096);
    }
    for (int modulus = 2; modulus <= 256; modulus *= 2) {
        right &= is_same(diff_encoder, diff_encoder_by_hand, 4096, modulus, 0, 4096);
    }
    return right & is_same(map_bb, map_bb_by_hand, 4096, 256, 0, 4096);
}

int main(void) {
    for (size_t k = 0; k < sizeof memory; k++) {
        memory[k] = (uint8_t)rand();
    }
    make_taps((const int16_t *)second);
#ifdef VOLK
    make_reals();
    printf("VOLK as %s\n", volk_get_machine());
#endif
    if (!is_right()) {
        fputs("a loop by hand is wrong\n", stderr);
        return 1;
    }
    for (int k = 0; k < COUNT; k++) {
        calls[k] = 1 + (long)(ROUND_TIME / time_of(&rows[k], 1));
        least[k] = 1e18;
    }
    for (int round = 0; round < ROUNDS; round++) {
        for (int k = 0; k < COUNT; k++) {
            const double time = time_of(&rows[k], calls[k]);
            least[k] = time < least[k] ? time : least[k];
        }
    }
    for (int k = 0; k < COUNT; k++) {
        printf("%-36s %9.4f\n", rows[k].name, least[k] / (double)rows[k].items);
    }
}
