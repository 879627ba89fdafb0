/* Times one form in every case of the groups that it is linked with (bench.h).
 *
 *   driver SAMPLES  prints for each case: operation, number, kind, the time of one operation in steps, in the best of
 *                   SAMPLES samples; the nanoseconds of a step; the check sum of a sample. A step is one of a chain of
 *                   multiplications that runs before and after each sample: in steps, a time does not depend on the
 *                   speed at which the processor's clock runs at the moment.
 *
 * SPDX-License-Identifier: Apache-2.0
 */
#define _POSIX_C_SOURCE 200809L
#include <stdio.h>
#include <stdlib.h>
#include <time.h>
#include "bench.h"

static int samples;
static double reading; /* what two readings of the clock are apart if nothing is between them */

static double nanoseconds(void)
{
    struct timespec t;
    clock_gettime(CLOCK_MONOTONIC, &t);
    return 1e9 * (double)t.tv_sec + (double)t.tv_nsec;
}

static double lesser(double a, double b)
{
    return a < b ? a : b;
}

static double reading_the_clock(void)
{
    double best = 1e9;
    for (int i = 0; i < 1000; i++) {
        double start = nanoseconds();
        best = lesser(best, nanoseconds() - start);
    }
    return best;
}

/* The nanoseconds of one step. */
static double step(void)
{
    enum { STEPS = 1000 };
    static volatile uint64_t chain = 1;
    double best = 1e9;
    for (int k = 0; k < 4; k++) {
        double start = nanoseconds();
        uint64_t x = chain;
        for (int i = 0; i < STEPS; i++)
            x = x * 0x9e3779b97f4a7c15u ^ x >> 29;
        chain = x;
        best = lesser(best, nanoseconds() - start - reading);
    }
    return best / STEPS;
}

/* The nanoseconds of one operation; the check sum goes to *sum. */
static double sample(const struct bench *b, uint32_t *sum)
{
    double total = 0;
    *sum = 0;
    for (uint32_t done = 0; done < b->sample; done += b->times) {
        b->prepare(b->number);
        double start = nanoseconds();
        uint32_t answers = b->run(b->times);
        total += nanoseconds() - start - reading;
        *sum += b->rest(answers);
    }
    return total / b->sample;
}

static void measure(const struct bench *b)
{
    double best = 1e9, best_step = 1e9;
    uint32_t sum = 0;
    for (int k = 0; k < samples; k++) {
        double before = step();
        double time = sample(b, &sum);
        double beside = lesser(before, step());
        best = lesser(best, time / beside);
        best_step = lesser(best_step, beside);
    }
    printf("%s\t%u\t%s\t%.4f\t%.4f\t%08x\n", b->operation, b->number, b->kind, best, best_step, sum);
}

int main(int argc, char **argv)
{
    expect(argc == 2, "usage: driver SAMPLES");
    samples = atoi(argv[1]);
    reading = reading_the_clock();
    each_case(measure);
}
