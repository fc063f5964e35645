/*
 * What the files of one program share: calls.c has its `main` and these helpers, and plants.c, streams.c, slices.c and
 * kernels.c have the tests that it calls with `held`.
 */
#ifndef CALLS_H
#define CALLS_H

#include "magbelu.h"

/* The file of a graph of shorts: a source `src`, a block `add` that adds 1, and a sink `out`. */
extern const char chain[];

/* must HOLDS SAYING: ends the program with this line where it does not hold */
void must(int holds, const char *saying);

/* is ANSWER STATUS NUMBER OUTPUT_LEN ERROR LINE: whether the answer is this */
void is(struct magbelu_answer answer, uint32_t status, uint32_t number, size_t output_len, const char *error,
        const char *line);

/* replied REPLY STATUS NUMBER WHAT VALUE: whether the reply is this */
void replied(struct magbelu_reply reply, uint32_t status, uint32_t number, uint32_t what, uint64_t value,
             const char *saying);

/* In plants.c. */
void held(void);
void threads(void);

/* In streams.c. */
void streams(void);

/* In slices.c. */
void slices(void);

/* In kernels.c. */
void kernels(void);

#endif
