/* The memory slab.
 *
 * SPDX-License-Identifier: Apache-2.0
 */
#include <string.h>

#include "check.h"

enum { BLOCKS, SIZE, USED, FIRST };

static void made(uint32_t blocks) { EQUAL(wq_k_mem_slab_init(&m.slab, m.link, WORDS, 16, blocks), WQ_OK); }

static void with_head(uint32_t blocks, uint32_t size, uint32_t used, uint32_t first)
{
    m.slab.head[BLOCKS] = blocks;
    m.slab.head[SIZE] = size;
    m.slab.head[USED] = used;
    m.slab.head[FIRST] = first;
}

static void numbers(int64_t blocks, int64_t size, int64_t used)
{
    keep();
    EQUAL(wq_k_mem_slab_num_blocks_get(&m.slab), blocks);
    EQUAL(wq_k_mem_slab_block_size_get(&m.slab), size);
    EQUAL(wq_k_mem_slab_num_used_get(&m.slab), used);
    EQUAL(wq_k_mem_slab_num_free_get(&m.slab), blocks - used);
    EQUAL(wq_k_mem_slab_is_full(&m.slab), used == blocks);
    EQUAL(wq_k_mem_slab_is_empty(&m.slab), used == 0);
    CHECK(stays());
}

/* ---- One call, and every byte of the memory after it ------------------------------------------ */

/* The answer is the block. */
static uint32_t alloc(void)
{
    const uint32_t block = m.slab.head[FIRST], used = m.slab.head[USED], next = m.link[block];
    keep();
    EQUAL(wq_k_mem_slab_alloc(&m.slab), block);
    word_becomes(&m.slab.head[FIRST], next - 1);
    word_becomes(&m.slab.head[USED], used + 1);
    word_becomes(&m.link[block], 0);
    CHECK(stays());
    return block;
}

static void free_block(uint32_t block)
{
    const uint32_t first = m.slab.head[FIRST], used = m.slab.head[USED];
    keep();
    EQUAL(wq_k_mem_slab_free(&m.slab, block), WQ_OK);
    word_becomes(&m.slab.head[FIRST], block);
    word_becomes(&m.slab.head[USED], used - 1);
    word_becomes(&m.link[block], first + 1);
    CHECK(stays());
}

static void refused_by_all(void)
{
    REFUSED(wq_k_mem_slab_alloc(&m.slab), WQ_EINVAL);
    UP_TO(block, WORDS) REFUSED(wq_k_mem_slab_free(&m.slab, block), WQ_EINVAL);
    REFUSED(wq_k_mem_slab_free(&m.slab, UINT32_MAX), WQ_EINVAL);
    REFUSED(wq_k_mem_slab_num_used_get(&m.slab), WQ_EINVAL);
    REFUSED(wq_k_mem_slab_num_free_get(&m.slab), WQ_EINVAL);
    REFUSED(wq_k_mem_slab_num_blocks_get(&m.slab), WQ_EINVAL);
    REFUSED(wq_k_mem_slab_block_size_get(&m.slab), WQ_EINVAL);
    REFUSED(wq_k_mem_slab_is_full(&m.slab), WQ_EINVAL);
    REFUSED(wq_k_mem_slab_is_empty(&m.slab), WQ_EINVAL);
}

/* ---- Tests ------------------------------------------------------------------------------------ */

/* Three cans. Who has one fills it; the dairy gives it back empty. */
static void milk_cans(void)
{
    made(3);
    EQUAL(wq_k_mem_slab_alloc(&m.slab), 0);
    EQUAL(wq_k_mem_slab_alloc(&m.slab), 1);
    EQUAL(wq_k_mem_slab_free(&m.slab, 0), WQ_OK);
    EQUAL(wq_k_mem_slab_free(&m.slab, 0), WQ_EINVAL);
    EQUAL(wq_k_mem_slab_alloc(&m.slab), 0);
    EQUAL(wq_k_mem_slab_alloc(&m.slab), 2);
    EQUAL(wq_k_mem_slab_alloc(&m.slab), WQ_ENOMEM);
    EQUAL(wq_k_mem_slab_free(&m.slab, 3), WQ_EINVAL);
    EQUAL(wq_k_mem_slab_free(&m.slab, 1), WQ_OK);
    EQUAL(wq_k_mem_slab_alloc(&m.slab), 1);
    numbers(3, 16, 3);
}

static void of_a_new_slab_all_is_free(void)
{
    static const struct sized good[] = {{1, 1}, {1, WORDS}, {2, 2}, {8, 9}, {WORDS, WORDS}};
    for (size_t i = 0; i < COUNT_OF(good); i++) {
        const uint32_t blocks = good[i].size, size = i == 0 ? UINT32_MAX : 1;
        memset(m.link, FILL, sizeof m.link);
        with_head(5, 4, 3, 2);
        keep();
        EQUAL(wq_k_mem_slab_init(&m.slab, m.link, good[i].len, size, blocks), WQ_OK);
        CHECK(m.slab.link == m.link && m.slab.link_len == good[i].len);
        ALLOW(m.slab.link);
        ALLOW(m.slab.link_len);
        word_becomes(&m.slab.head[BLOCKS], blocks);
        word_becomes(&m.slab.head[SIZE], size);
        word_becomes(&m.slab.head[USED], 0);
        word_becomes(&m.slab.head[FIRST], 0);
        for (uint32_t b = 0; b < blocks; b++)
            word_becomes(&m.link[b], b + 1 < blocks ? b + 2 : 1);
        CHECK(stays());
        numbers(blocks, size, 0);
    }
}

static void a_slab_that_cannot_be_is_refused(void)
{
    for (size_t i = 0; i < BAD_SIZES; i++)
        REFUSED(wq_k_mem_slab_init(&m.slab, m.link, bad_sizes[i].len, 16, bad_sizes[i].size), WQ_EINVAL);
    REFUSED(wq_k_mem_slab_init(&m.slab, m.link, WORDS, 0, 4), WQ_EINVAL);
    REFUSED(wq_k_mem_slab_init(&m.slab, m.link, WORDS, 0, 0), WQ_EINVAL);
    REFUSED(wq_k_mem_slab_init(&m.slab, m.link, WORDS, UINT32_MAX, WORDS + 1), WQ_EINVAL);
    EQUAL(wq_k_mem_slab_init(&m.slab, m.link, (1ull << 32) + 2, 16, 4), WQ_OK);
    numbers(4, 16, 0);
}

static void every_block_once(void)
{
    for (uint32_t blocks = 1; blocks <= WORDS; blocks++) {
        bool out[WORDS] = {false};
        made(blocks);
        for (uint32_t used = 0; used < blocks; used++) {
            numbers(blocks, 16, used);
            const uint32_t block = alloc();
            CHECK(block < blocks && !out[block]);
            out[block] = true;
        }
        numbers(blocks, 16, blocks);
        REFUSED(wq_k_mem_slab_alloc(&m.slab), WQ_ENOMEM);
    }
}

/* The last that came back is the first that is given. */
static void back_in_every_order(void)
{
    enum { MANY = 4 };
    made(MANY);
    UP_TO(a, MANY - 1) UP_TO(b, MANY - 1) UP_TO(c, MANY - 1)
    {
        if (a == b || a == c || b == c)
            continue;
        const uint32_t order[MANY] = {a, b, c, 6 - a - b - c};
        while (m.slab.head[USED] < MANY)
            alloc();
        for (uint32_t i = 0; i < MANY; i++) {
            free_block(order[i]);
            numbers(MANY, 16, MANY - 1 - i);
        }
        for (uint32_t i = MANY; i > 0; i--)
            EQUAL(alloc(), order[i - 1]);
    }
}

static void only_what_is_out_comes_back(void)
{
    made(4);
    UP_TO(block, WORDS) REFUSED(wq_k_mem_slab_free(&m.slab, block), WQ_EINVAL);
    alloc();
    alloc();
    free_block(0);
    REFUSED(wq_k_mem_slab_free(&m.slab, 0), WQ_EINVAL);
    REFUSED(wq_k_mem_slab_free(&m.slab, 2), WQ_EINVAL);
    REFUSED(wq_k_mem_slab_free(&m.slab, 3), WQ_EINVAL);
    m.link[4] = m.link[5] = 0; /* behind the blocks: these are none */
    REFUSED(wq_k_mem_slab_free(&m.slab, 4), WQ_EINVAL);
    REFUSED(wq_k_mem_slab_free(&m.slab, 5), WQ_EINVAL);
    REFUSED(wq_k_mem_slab_free(&m.slab, 1u << 31), WQ_EINVAL);
    REFUSED(wq_k_mem_slab_free(&m.slab, UINT32_MAX), WQ_EINVAL);
    free_block(1);
    REFUSED(wq_k_mem_slab_free(&m.slab, 1), WQ_EINVAL);
}

/* Against a list of the blocks that are free, the next to be given last. */
static void a_long_run(void)
{
    for (uint32_t blocks = 1; blocks <= WORDS; blocks++) {
        uint32_t free[WORDS], count = blocks;
        bool out[WORDS] = {false};
        made(blocks);
        for (uint32_t b = 0; b < blocks; b++)
            free[b] = blocks - 1 - b;
        for (int i = 0; i < 1000; i++) {
            const uint32_t block = random_below(blocks);
            numbers(blocks, 16, blocks - count);
            if (random_below(2) == 0 && count > 0) {
                EQUAL(alloc(), free[--count]);
                out[free[count]] = true;
            } else if (out[block]) {
                free_block(block);
                free[count++] = block;
                out[block] = false;
            } else {
                REFUSED(wq_k_mem_slab_free(&m.slab, block), WQ_EINVAL);
            }
        }
    }
}

/* Numbers of a slab that no machine here has the memory for; its first links are all that is reached. */
static void the_greatest_slab(void)
{
    const uint32_t most = UINT32_MAX;
    made(4);
    m.slab.link_len = most;
    with_head(most, most, most, most - 1);
    numbers(most, most, most);
    REFUSED(wq_k_mem_slab_alloc(&m.slab), WQ_ENOMEM);
    REFUSED(wq_k_mem_slab_free(&m.slab, 2), WQ_EINVAL);
    m.link[2] = 0;
    free_block(2);
    numbers(most, most, most - 1);
    CHECK(m.link[2] == most);
    EQUAL(alloc(), 2);
    EQUAL(m.slab.head[FIRST], most - 1);
}

static void malformed_slabs_are_refused(void)
{
    static const struct {
        uint32_t head[4];
        uint64_t len;
    } bad[] = {
        {{0, 16, 0, 0}, WORDS},
        {{4, 0, 2, 2}, WORDS},
        {{4, 0, 4, 2}, WORDS},
        {{4, 16, 5, 2}, WORDS},
        {{4, 16, UINT32_MAX, 2}, WORDS},
        {{4, 16, 2, 4}, WORDS},
        {{4, 16, 2, 5}, WORDS},
        {{4, 16, 4, 4}, WORDS},
        {{4, 16, 4, UINT32_MAX}, WORDS},
        {{4, 16, 2, UINT32_MAX}, WORDS},
        {{4, 16, 2, 2}, 3},
        {{4, 16, 4, 2}, 3},
        {{4, 16, 2, 2}, 0},
        {{UINT32_MAX, 16, 2, 2}, UINT32_MAX - 1ull},
        {{4, 16, 2, 0}, WORDS}, /* the first is out */
        {{4, 16, 0, 1}, WORDS},
        {{4, 16, 3, 6}, WORDS},
        {{0, 0, 0, 0}, 0},
        {{0, 0, 1, 1}, WORDS},
        {{UINT32_MAX, UINT32_MAX, UINT32_MAX, UINT32_MAX}, WORDS},
    };
    static const uint32_t no_links[] = {0, 5, 6, 1u << 31, UINT32_MAX};
    for (size_t i = 0; i < COUNT_OF(bad); i++) {
        made(4);
        alloc();
        alloc();
        m.link[4] = m.link[5] = m.link[6] = 1; /* behind the blocks: this would be a free block */
        memcpy(m.slab.head, bad[i].head, sizeof m.slab.head);
        m.slab.link_len = bad[i].len;
        refused_by_all();
    }
    for (size_t i = 0; i < COUNT_OF(no_links); i++) {
        made(4);
        alloc();
        m.link[m.slab.head[FIRST]] = no_links[i];
        refused_by_all();
    }
}

/* ---- Links of any kind ------------------------------------------------------------------------ */

static bool malformed(void)
{
    const uint32_t used = m.slab.head[USED], first = m.slab.head[FIRST];
    return used > 3 || first >= 3 || (used < 3 && (m.link[first] == 0 || m.link[first] > 3));
}

/* Whatever the links are, one call does what it says and no more. */
static void one_call_each(const uint32_t *head, const uint32_t *link)
{
    static const uint32_t blocks[] = {0, 1, 2, 3, 4, UINT32_MAX};
    for (size_t i = 0; i <= COUNT_OF(blocks); i++) {
        memcpy(m.slab.head, head, sizeof m.slab.head);
        memcpy(m.link, link, 3 * sizeof *link);
        if (i == COUNT_OF(blocks)) {
            if (malformed())
                REFUSED(wq_k_mem_slab_alloc(&m.slab), WQ_EINVAL);
            else if (head[USED] == 3)
                REFUSED(wq_k_mem_slab_alloc(&m.slab), WQ_ENOMEM);
            else
                alloc();
        } else if (malformed() || blocks[i] >= 3 || link[blocks[i]] != 0 || head[USED] == 0) {
            REFUSED(wq_k_mem_slab_free(&m.slab, blocks[i]), WQ_EINVAL);
        } else {
            free_block(blocks[i]);
        }
    }
}

/* Cycles, links to a block that is out or to none: a block is given once at the most, as its link then says that it is
 * out, and in the end an alloc refuses. */
static void no_block_twice(const uint32_t *head, const uint32_t *link)
{
    bool out[3];
    int64_t block;
    int given = 0;
    memcpy(m.slab.head, head, sizeof m.slab.head);
    memcpy(m.link, link, 3 * sizeof *link);
    for (int b = 0; b < 3; b++)
        out[b] = link[b] == 0;
    while (given <= 3 && (block = wq_k_mem_slab_alloc(&m.slab)) >= 0) {
        CHECK(block < 3 && !out[block]);
        out[block % 3] = true;
        given++;
    }
    CHECK(given <= 3);
}

static void any_links_are_refused_or_harmless(void)
{
    static const uint32_t links[] = {0, 1, 2, 3, 4, UINT32_MAX};
    const size_t last = COUNT_OF(links) - 1;
    made(3);
    UP_TO(used, 4) UP_TO(first, 3) UP_TO(a, last) UP_TO(b, last) UP_TO(c, last)
    {
        const uint32_t head[] = {3, 16, used, first}, link[] = {links[a], links[b], links[c]};
        one_call_each(head, link);
        no_block_twice(head, link);
    }
}

/* ---- Decisions -------------------------------------------------------------------------------- */

static void alloc_decides(uint32_t used, uint32_t blocks, bool no_wait, int32_t code, uint32_t new_used)
{
    DECIDES_ONE(wq_mem_slab_alloc_decide(used, blocks, no_wait, &m.first), code, new_used);
}

static void free_decides(uint32_t used, bool waiter, int32_t code, uint32_t new_used)
{
    DECIDES_ONE(wq_mem_slab_free_decide(used, waiter, &m.first), code, new_used);
}

static void alloc_decisions(void)
{
    UP_TO(used, 4) UP_TO(blocks, 4) UP_TO(no_wait, 1)
    {
        if (blocks == 0 || used > blocks)
            alloc_decides(used, blocks, no_wait, WQ_EINVAL, 0);
        else if (used < blocks)
            alloc_decides(used, blocks, no_wait, WQ_OK, used + 1);
        else
            alloc_decides(used, blocks, no_wait, no_wait ? WQ_ENOMEM : WQ_WAITS, used);
    }
    alloc_decides(UINT32_MAX - 1, UINT32_MAX, true, WQ_OK, UINT32_MAX);
    alloc_decides(UINT32_MAX, UINT32_MAX, true, WQ_ENOMEM, 0);
    alloc_decides(UINT32_MAX, UINT32_MAX, false, WQ_WAITS, UINT32_MAX);
    alloc_decides(UINT32_MAX, UINT32_MAX - 1, false, WQ_EINVAL, 0);
}

static void free_decisions(void)
{
    static const uint32_t used[] = {1, 2, 1u << 31, UINT32_MAX};
    free_decides(0, false, WQ_EINVAL, 0);
    free_decides(0, true, WQ_EINVAL, 0);
    for (size_t i = 0; i < COUNT_OF(used); i++) {
        free_decides(used[i], false, WQ_FREE_FREE, used[i] - 1);
        free_decides(used[i], true, WQ_FREE_WAKE_THREAD, used[i]);
    }
}

static void decide_functions_agree(void)
{
    made(3);
    UP_TO(used, 3)
    {
        EQUAL(wq_k_mem_slab_num_used_get(&m.slab), used);
        const int32_t code = wq_mem_slab_alloc_decide(used, 3, true, &m.first);
        const int64_t block = wq_k_mem_slab_alloc(&m.slab);
        EQUAL(block < 0 ? block : WQ_OK, code);
        EQUAL(wq_k_mem_slab_num_used_get(&m.slab), m.first);
    }
    for (uint32_t used = 3; used > 0; used--) {
        EQUAL(wq_mem_slab_free_decide(used, false, &m.first), wq_k_mem_slab_free(&m.slab, used - 1));
        EQUAL(wq_k_mem_slab_num_used_get(&m.slab), m.first);
    }
    EQUAL(wq_mem_slab_free_decide(0, false, &m.first), wq_k_mem_slab_free(&m.slab, 0));
}

static const struct test tests[] = {
    TEST(milk_cans),
    TEST(of_a_new_slab_all_is_free),
    TEST(a_slab_that_cannot_be_is_refused),
    TEST(every_block_once),
    TEST(back_in_every_order),
    TEST(only_what_is_out_comes_back),
    TEST(a_long_run),
    TEST(the_greatest_slab),
    TEST(malformed_slabs_are_refused),
    TEST(any_links_are_refused_or_harmless),
    TEST(alloc_decisions),
    TEST(free_decisions),
    TEST(decide_functions_agree),
};

const struct group mem_slab_group = GROUP("mem_slab", tests);
