/*
 * What the copies of a chain of adders cost, by hand: a step copies what a ring holds into its window, adds 1 to each
 * item, into a place of its own, and copies that into the next ring. Beside it the same with the one copy, the other,
 * or both left out, where the loop reads the ring, or writes into the next one. It prints nanoseconds an item and
 * adder, the least of many rounds in which the four take turns.
 *
 *     gcc -O3 -march=x86-64-v3 benches/beside/chain.c -o chain
 */
#include <stdint.h>
#include <stdio.h>
#include <stdlib.h>
#include <string.h>
#include <time.h>

enum { ROUNDS = 500, ITEMS = 1 << 17, MOST_ADDERS = 16, MOST_BYTES = 1 << 18 };

/* Each begins at another distance from a page, so that no load has the low twelve bits of a store shortly before it. */
enum { ROOM = MOST_BYTES + 512 };
static _Alignas(4096) uint8_t rings[MOST_ADDERS + 1][ROOM], windows[MOST_ADDERS][ROOM], places[MOST_ADDERS][ROOM];

typedef void adder(size_t count, const void *restrict from, void *restrict to);

#define ADDER(name, T)                                                                                          \
    __attribute__((noipa)) static void name(size_t count, const void *restrict from, void *restrict to) {      \
        const T *x = from;                                                                                      \
        T *z = to;                                                                                              \
        for (size_t n = 0; n < count; n++) {                                                                    \
            z[n] = (T)(x[n] + 1);                                                                               \
        }                                                                                                       \
    }
ADDER(add_bytes, uint8_t)
ADDER(add_shorts, uint16_t)
ADDER(add_ints, uint32_t)

/* So many items through a chain, a buffer at a time. */
static void run(adder *add, size_t size, int adders, size_t capacity, int has_windows, int has_places) {
    for (size_t given = 0; given < ITEMS; given += capacity) {
        rings[0][0]++;
        for (int k = 0; k < adders; k++) {
            const uint8_t *from = has_windows ? memcpy(windows[k], rings[k], capacity * size) : rings[k];
            uint8_t *const to = has_places ? places[k] : rings[k + 1];
            add(capacity, from, to);
            if (has_places) {
                memcpy(rings[k + 1], to, capacity * size);
            }
        }
    }
}

static double time_of(adder *add, size_t size, int adders, size_t capacity, int has_windows, int has_places) {
    struct timespec begun, ended;
    clock_gettime(CLOCK_MONOTONIC, &begun);
    run(add, size, adders, capacity, has_windows, has_places);
    clock_gettime(CLOCK_MONOTONIC, &ended);
    return (double)(ended.tv_sec - begun.tv_sec) * 1e9 + (double)(ended.tv_nsec - begun.tv_nsec);
}

static void print_row(const char *name, adder *add, size_t size, int adders, size_t capacity) {
    double least[4] = {1e18, 1e18, 1e18, 1e18};
    for (int round = 0; round < ROUNDS; round++) {
        for (int way = 0; way < 4; way++) {
            const double time = time_of(add, size, adders, capacity, !(way & 1), !(way & 2));
            least[way] = time < least[way] ? time : least[way];
        }
    }
    printf("%-6s %3d %7zu", name, adders, capacity);
    for (int way = 0; way < 4; way++) {
        printf(" %9.4f", least[way] / (double)ITEMS / adders);
    }
    putchar('\n');
}

int main(void) {
    puts("items  add capacity both copies, no window, no place, neither");
    for (int adders = 1; adders <= MOST_ADDERS; adders *= 4) {
        for (size_t capacity = 64; capacity <= 65536; capacity *= capacity < 4096 ? 64 : 16) {
            print_row("bytes", add_bytes, 1, adders, capacity);
            print_row("shorts", add_shorts, 2, adders, capacity);
            print_row("ints", add_ints, 4, adders, capacity);
        }
    }
}
