/* The cases of the bench, in groups: each group is a translation unit, and a form is linked with those it has.
 *
 * SPDX-License-Identifier: Apache-2.0
 */
#ifndef BENCH_H
#define BENCH_H

#include <stdbool.h>
#include <stddef.h>
#include <stdint.h>

#define NOINLINE __attribute__((noinline))
#define COUNT_OF(array) (sizeof(array) / sizeof(array)[0])

enum { SAMPLE = 4096 };

/* prepare makes the objects, run does the work that is measured and answers a check sum, and rest adds to it what the
 * objects hold then. */
struct bench {
    const char *operation;
    uint32_t number;  /* how many wait; or how many bytes */
    const char *kind; /* their priorities; or where the bytes are */
    void (*prepare)(uint32_t number);
    uint32_t (*run)(uint32_t times);
    uint32_t (*rest)(uint32_t sum);
    uint32_t times;  /* how many operations one prepare is good for */
    uint32_t sample; /* how many make a sample, a multiple of that */
};

struct group {
    const struct bench *cases;
    size_t count;
    void (*choose)(const char *kind); /* called once before each case */
};

/* Calls measure with every case of the groups that the form is linked with (cases.c). */
void each_case(void (*measure)(const struct bench *b));

/* NULL where the form does not have it. */
extern const struct group thread_group __attribute__((weak)); /* threads.c */
extern const struct group bytes_group __attribute__((weak));  /* bytes.c */
extern const struct group slab_group __attribute__((weak));   /* slab.c */
extern const struct group number_group __attribute__((weak)); /* numbers.c */
extern const struct group refusal_group __attribute__((weak)); /* refusals.c */

void expect(bool good, const char *what); /* or the run ends (cases.c) */

/* The check sum over what a form answers; it depends on the order. */
static inline uint32_t mix(uint32_t sum, uint32_t id, int32_t result)
{
    return 5 * sum + id + (uint32_t)result;
}

#endif
