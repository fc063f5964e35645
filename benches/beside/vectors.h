/*
 * What VOLK has that is like a kernel: of 32 bits, and of floats where it has no ints. Its filter is its dot product at
 * each output, which is what GNU Radio's calls.
 */
#ifndef VECTORS_H
#define VECTORS_H

#include <volk/volk.h>

#include "filters.h"

static _Alignas(64) float reals[2048], others[2048];

static void make_reals(void) {
    for (int k = 0; k < 2048; k++) {
        reals[k] = (float)(k % 251) - 125;
        others[k] = (float)(k % 127) - 63;
    }
}

LOOP(volk_fir, float, float,
     for (size_t n = 0; n < count; n++) { volk_32f_x2_dot_prod_32f(z + n, reals + n, others, (unsigned)p); })
LOOP(volk_add, float, float, volk_32f_x2_add_32f(z, reals, others, (unsigned)count);)
LOOP(volk_multiply, float, float, volk_32f_x2_multiply_32f(z, reals, others, (unsigned)count);)
LOOP(volk_multiply_const, float, float, volk_32f_s32f_multiply_32f(z, reals, (float)p, (unsigned)count);)
LOOP(volk_maximum, float, float, volk_32f_x2_max_32f(z, reals, others, (unsigned)count);)
LOOP(volk_and, int32_t, int32_t, volk_32i_x2_and_32i(z, x, y, (unsigned)count);)
LOOP(volk_or, int32_t, int32_t, volk_32i_x2_or_32i(z, x, y, (unsigned)count);)
/* So many soft bits, two for each bit that is decoded. */
LOOP(volk_viterbi, uint8_t, uint8_t, volk_8u_conv_k7_r2puppet_8u(w, z, (unsigned)count);)

#endif
