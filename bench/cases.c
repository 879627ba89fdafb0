/* What driver.c and counting.c share.
 *
 * SPDX-License-Identifier: Apache-2.0
 */
#include <stdio.h>
#include <stdlib.h>
#include "bench.h"

void expect(bool good, const char *what)
{
    if (!good) {
        fprintf(stderr, "driver: %s\n", what);
        exit(1);
    }
}

void each_case(void (*measure)(const struct bench *b))
{
    const struct group *groups[] = {&thread_group, &bytes_group, &slab_group, &number_group, &refusal_group};
    for (size_t g = 0; g < COUNT_OF(groups); g++)
        for (size_t i = 0; groups[g] != NULL && i < groups[g]->count; i++) {
            groups[g]->choose(groups[g]->cases[i].kind);
            measure(&groups[g]->cases[i]);
        }
}
