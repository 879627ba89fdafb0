/* Memory slab. The build defines how a form knows a block:
 *   FORM_ARRAY   by its number, under the names of waitqueue.h
 *   FORM_BLOCKS  by its address (blocks.h)
 *
 * SPDX-License-Identifier: Apache-2.0
 */
#include "bench.h"
#include "waitqueue.h"

enum { BLOCKS = 16, TAKEN = 8, BLOCK_SIZE = 64 };

#if defined FORM_ARRAY

typedef int64_t form_block; /* below 0: a refusal */

static struct wq_mem_slab slab;
static uint32_t links[BLOCKS];

static int32_t form_init(void)
{
    return wq_mem_slab_init(slab.head, links, BLOCKS, BLOCK_SIZE, BLOCKS);
}

static inline form_block form_alloc(void)
{
    return wq_mem_slab_alloc(slab.head, links, BLOCKS);
}

static inline int32_t form_free(form_block block)
{
    return wq_mem_slab_free(slab.head, links, BLOCKS, (uint32_t)block);
}

static inline uint32_t form_number(form_block block)
{
    return (uint32_t)block;
}

#elif defined FORM_BLOCKS

#include "blocks.h"

typedef char *form_block; /* NULL: a refusal */

static struct blocks_slab slab;
static _Alignas(64) char memory[BLOCKS * BLOCK_SIZE];

static int32_t form_init(void)
{
    return blocks_slab_init(&slab, memory, BLOCK_SIZE, BLOCKS);
}

static inline form_block form_alloc(void)
{
    char *block = NULL;
    blocks_slab_alloc(&slab, &block);
    return block;
}

static inline int32_t form_free(form_block block)
{
    blocks_slab_free(&slab, block);
    return WQ_OK;
}

static inline uint32_t form_number(form_block block)
{
    return block == NULL ? (uint32_t)WQ_ENOMEM : (uint32_t)(block - memory) / BLOCK_SIZE;
}

#else
#error "no form chosen"
#endif

/* Those that are out; the one that is out longest is given back next. */
static form_block taken[TAKEN];

static void choose_nothing(const char *how)
{
    (void)how;
}

static void prepare_slab(uint32_t bytes)
{
    (void)bytes;
    expect(form_init() == WQ_OK, "a slab is not made");
    for (uint32_t i = 0; i < TAKEN; i++) {
        taken[i] = form_alloc();
        expect(form_number(taken[i]) < BLOCKS, "a block is not given");
    }
}

static NOINLINE uint32_t run_slab(uint32_t times)
{
    uint32_t sum = 1;
    for (uint32_t i = 0; i < times; i++) {
        form_block block = form_alloc();
        int32_t freed = form_free(taken[i % TAKEN]);
        taken[i % TAKEN] = block;
        sum = mix(sum, form_number(block), freed);
    }
    return sum;
}

/* All that are free, in the order in which they are given. */
static uint32_t rest_of_slab(uint32_t sum)
{
    for (uint32_t i = TAKEN; i <= BLOCKS; i++)
        sum = mix(sum, form_number(form_alloc()), 0);
    return sum;
}

static const struct bench cases[] = {
    {"slab alloc+free", BLOCK_SIZE, "-", prepare_slab, run_slab, rest_of_slab, SAMPLE, SAMPLE},
};

const struct group slab_group = {cases, COUNT_OF(cases), choose_nothing};
