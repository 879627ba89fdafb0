/* Runs one form once through every case of the groups that it is linked with (bench.h), for a tool that counts
 * instructions: counted() is called before and after what is to be counted. Prints for each case: operation, number, kind,
 * operations in that run, check sum.
 *
 * SPDX-License-Identifier: Apache-2.0
 */
#include <inttypes.h>
#include <stdio.h>
#include "bench.h"

NOINLINE void counted(void)
{
    __asm__ volatile("");
}

static void count(const struct bench *b)
{
    b->prepare(b->number);
    counted();
    uint32_t answers = b->run(b->times);
    counted();
    printf("%s\t%" PRIu32 "\t%s\t%" PRIu32 "\t%08" PRIx32 "\n", b->operation, b->number, b->kind, b->times, b->rest(answers));
}

int main(void)
{
    each_case(count);
}
