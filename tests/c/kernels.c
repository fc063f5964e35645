/*
 * Calls of kernels: what they make of bytes, shorts and ints, and that slices which differ in length are refused.
 */
#include "calls.h"

void kernels(void) {
    int16_t a[40], b[40], out[40];
    int32_t x[3] = {INT32_MAX, -5, 7}, y[3] = {1, 3, 6}, z[3] = {9, 9, 9};
    const uint8_t m[3] = {0xf0, 0x0f, 0xff}, n[3] = {0xff, 0x01, 0x80};
    uint8_t o[3];
    int at;
    for (at = 0; at < 40; at++) {
        a[at] = (int16_t)(32760 + at);
        b[at] = (int16_t)(3 * at);
    }
    must(magbelu_kernel_add_shorts(a, 40, b, 40, out, 40) == 0, "a sum");
    for (at = 0; at < 40; at++) {
        must(out[at] == (int16_t)(uint16_t)(32760 + 4 * at), "an item of a sum");
    }
    must(magbelu_kernel_add_shorts(a, 40, b, 39, out, 40) == MAGBELU_LENGTHS &&
        magbelu_kernel_add_shorts(a, 40, b, 40, out, 39) == MAGBELU_LENGTHS, "lengths");
    must(out[0] == 32760, "a kernel that was refused writes");
    must(magbelu_kernel_add_number_shorts(b, 40, -3, out, 40) == 0 && out[39] == 114, "a number more");
    must(magbelu_kernel_multiply_shorts(b, 40, 1000, out, 40) == 0 && out[39] == (int16_t)(uint16_t)117000,
         "a product");
    must(magbelu_kernel_xor_shorts(b, 40, b, 40, out, 40) == 0 && out[39] == 0, "xor of itself");
    must(magbelu_kernel_add_ints(x, 3, y, 3, z, 3) == 0 && z[0] == INT32_MIN && z[1] == -2 && z[2] == 13,
         "a sum of ints");
    must(magbelu_kernel_add_number_ints(x, 3, 1, z, 3) == 0 && z[0] == INT32_MIN && z[2] == 8, "a number more");
    must(magbelu_kernel_multiply_ints(x, 3, 2, z, 3) == 0 && z[0] == -2 && z[1] == -10, "a product of ints");
    must(magbelu_kernel_and_ints(x, 3, y, 3, z, 3) == 0 && z[1] == 3 && z[2] == 6, "and of ints");
    must(magbelu_kernel_or_ints(x, 3, y, 3, z, 3) == 0 && z[1] == -5 && z[2] == 7, "or of ints");
    must(magbelu_kernel_xor_ints(x, 3, y, 3, z, 3) == 0 && z[1] == -8 && z[2] == 1, "xor of ints");
    must(magbelu_kernel_and_bytes(m, 3, n, 3, o, 3) == 0 && o[0] == 0xf0 && o[1] == 0x01 && o[2] == 0x80,
         "and of bytes");
    must(magbelu_kernel_or_bytes(m, 3, n, 3, o, 3) == 0 && o[0] == 0xff && o[1] == 0x0f && o[2] == 0xff, "or of bytes");
    must(magbelu_kernel_xor_bytes(m, 3, n, 3, o, 3) == 0 && o[0] == 0x0f && o[1] == 0x0e && o[2] == 0x7f,
         "xor of bytes");
    must(magbelu_kernel_and_shorts(a, 40, b, 40, out, 40) == 0 && out[1] == (32761 & 3), "and of shorts");
    must(magbelu_kernel_or_shorts(a, 40, b, 40, out, 40) == 0 && out[1] == (32761 | 3), "or of shorts");
}
