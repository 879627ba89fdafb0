/* The stack.
 *
 * SPDX-License-Identifier: Apache-2.0
 */
#include <string.h>

#include "check.h"

enum { CAPACITY, COUNT };

static void made(uint32_t capacity) { EQUAL(wq_k_stack_init(&m.stack, m.word, WORDS, capacity), WQ_OK); }

static void with_head(uint32_t capacity, uint32_t count)
{
    m.stack.head[CAPACITY] = capacity;
    m.stack.head[COUNT] = count;
}

static void numbers(int64_t capacity, int64_t count)
{
    keep();
    EQUAL(wq_k_stack_capacity(&m.stack), capacity);
    EQUAL(wq_k_stack_num_used(&m.stack), count);
    EQUAL(wq_k_stack_num_free(&m.stack), capacity - count);
    EQUAL(wq_k_stack_is_full(&m.stack), count == capacity);
    EQUAL(wq_k_stack_is_empty(&m.stack), count == 0);
    CHECK(stays());
}

static void push(uint64_t data)
{
    const uint32_t count = m.stack.head[COUNT];
    keep();
    EQUAL(wq_k_stack_push(&m.stack, data), WQ_OK);
    long_becomes(&m.word[count], data);
    word_becomes(&m.stack.head[COUNT], count + 1);
    CHECK(stays());
}

static void pop(uint64_t data)
{
    const uint32_t count = m.stack.head[COUNT];
    keep();
    EQUAL(wq_k_stack_pop(&m.stack, &m.data), WQ_OK);
    long_becomes(&m.data, data);
    word_becomes(&m.stack.head[COUNT], count - 1);
    CHECK(stays());
}

/* The cups that are clean; the last that was washed is used first. */
static void clean_milking_cups(void)
{
    made(3);
    REFUSED(wq_k_stack_pop(&m.stack, &m.data), WQ_EBUSY);
    push(11);
    push(12);
    pop(12);
    push(13);
    push(12);
    REFUSED(wq_k_stack_push(&m.stack, 14), WQ_ENOMEM);
    numbers(3, 3);
    pop(12);
    pop(13);
    pop(11);
    numbers(3, 0);
}

static void a_new_stack_is_empty(void)
{
    static const struct sized good[] = {{1, 1}, {1, WORDS}, {8, 8}, {8, 9}, {WORDS, WORDS}};
    for (size_t i = 0; i < COUNT_OF(good); i++) {
        with_head(5, 4);
        keep();
        EQUAL(wq_k_stack_init(&m.stack, m.word, good[i].len, good[i].size), WQ_OK);
        CHECK(m.stack.word == m.word && m.stack.word_len == good[i].len);
        ALLOW(m.stack.word);
        ALLOW(m.stack.word_len);
        word_becomes(&m.stack.head[CAPACITY], good[i].size);
        word_becomes(&m.stack.head[COUNT], 0);
        CHECK(stays());
        numbers(good[i].size, 0);
    }
}

static void a_capacity_of_0_or_above_the_memory_is_refused(void)
{
    for (size_t i = 0; i < BAD_SIZES; i++)
        REFUSED(wq_k_stack_init(&m.stack, m.word, bad_sizes[i].len, bad_sizes[i].size), WQ_EINVAL);
}

static void every_bit_of_a_word_comes_back(void)
{
    static const uint64_t words[] = {0, 1, 1ull << 31, UINT32_MAX, 1ull << 32, 1ull << 63, UINT64_MAX};
    made(COUNT_OF(words));
    for (size_t i = 0; i < COUNT_OF(words); i++)
        push(words[i]);
    for (size_t i = COUNT_OF(words); i > 0; i--)
        pop(words[i - 1]);
}

static void what_went_in_last_comes_out_first(void)
{
    for (uint32_t capacity = 1; capacity <= WORDS; capacity++) {
        uint64_t held[WORDS];
        uint32_t count = 0;
        made(capacity);
        for (int i = 0; i < 1000; i++) {
            numbers(capacity, count);
            if (random_below(2) == 0) {
                const uint64_t data = random_word();
                if (count < capacity)
                    push(held[count++] = data);
                else
                    REFUSED(wq_k_stack_push(&m.stack, data), WQ_ENOMEM);
            } else if (count > 0) {
                pop(held[--count]);
            } else {
                REFUSED(wq_k_stack_pop(&m.stack, &m.data), WQ_EBUSY);
            }
        }
    }
}

/* The numbers of a stack that no machine here has the memory for; its first words are all that is reached. */
static void the_greatest_stack(void)
{
    EQUAL(wq_k_stack_init(&m.stack, m.word, UINT32_MAX, UINT32_MAX), WQ_OK);
    numbers(UINT32_MAX, 0);
    push(7);
    push(8);
    numbers(UINT32_MAX, 2);
    pop(8);
    with_head(UINT32_MAX, UINT32_MAX - 1);
    numbers(UINT32_MAX, UINT32_MAX - 1);
    with_head(UINT32_MAX, UINT32_MAX);
    numbers(UINT32_MAX, UINT32_MAX);
    REFUSED(wq_k_stack_push(&m.stack, 9), WQ_ENOMEM);
    EQUAL(wq_k_stack_init(&m.stack, m.word, (1ull << 32) + 2, 4), WQ_OK);
    numbers(4, 0);
    push(7);
    pop(7);
}

static void malformed_stacks_are_refused(void)
{
    static const struct {
        uint32_t capacity, count;
        uint64_t len;
    } bad[] = {
        {0, 0, WORDS}, {0, 0, 0},         {0, 1, WORDS}, {4, 5, WORDS},
        {4, 1u << 31, WORDS}, {4, UINT32_MAX, WORDS}, {4, 0, 3},     {4, 4, 3},
        {4, 2, 0},     {UINT32_MAX, 1, UINT32_MAX - 1ull}, {UINT32_MAX, UINT32_MAX, WORDS},
    };
    made(4);
    for (size_t i = 0; i < COUNT_OF(bad); i++) {
        with_head(bad[i].capacity, bad[i].count);
        m.stack.word_len = bad[i].len;
        REFUSED(wq_k_stack_push(&m.stack, 7), WQ_EINVAL);
        REFUSED(wq_k_stack_pop(&m.stack, &m.data), WQ_EINVAL);
        REFUSED(wq_k_stack_num_free(&m.stack), WQ_EINVAL);
        REFUSED(wq_k_stack_num_used(&m.stack), WQ_EINVAL);
        REFUSED(wq_k_stack_capacity(&m.stack), WQ_EINVAL);
        REFUSED(wq_k_stack_is_full(&m.stack), WQ_EINVAL);
        REFUSED(wq_k_stack_is_empty(&m.stack), WQ_EINVAL);
    }
}

static void push_decides(uint32_t count, uint32_t capacity, bool waiter, int32_t code, uint32_t new_count)
{
    DECIDES_ONE(wq_stack_push_decide(count, capacity, waiter, &m.first), code, new_count);
}

static void pop_decides(uint32_t count, bool no_wait, int32_t code, uint32_t new_count)
{
    DECIDES_ONE(wq_stack_pop_decide(count, no_wait, &m.first), code, new_count);
}

static void push_decisions(void)
{
    UP_TO(count, 4) UP_TO(capacity, 4) UP_TO(waiter, 1)
    {
        if (capacity == 0 || count > capacity || (waiter && count > 0))
            push_decides(count, capacity, waiter, WQ_EINVAL, 0);
        else if (waiter)
            push_decides(count, capacity, waiter, WQ_PUSH_WAKE_WAITER, count);
        else if (count == capacity)
            push_decides(count, capacity, waiter, WQ_ENOMEM, 0);
        else
            push_decides(count, capacity, waiter, WQ_PUSH_STORE, count + 1);
    }
    push_decides(UINT32_MAX - 1, UINT32_MAX, false, WQ_PUSH_STORE, UINT32_MAX);
    push_decides(UINT32_MAX, UINT32_MAX, false, WQ_ENOMEM, 0);
    push_decides(UINT32_MAX, UINT32_MAX, true, WQ_EINVAL, 0);
    push_decides(UINT32_MAX, UINT32_MAX - 1, false, WQ_EINVAL, 0);
    push_decides(0, UINT32_MAX, true, WQ_PUSH_WAKE_WAITER, 0);
}

static void pop_decisions(void)
{
    pop_decides(0, true, WQ_EBUSY, 0);
    pop_decides(0, false, WQ_WAITS, 0);
    UP_TO(no_wait, 1)
    {
        pop_decides(1, no_wait, WQ_OK, 0);
        pop_decides(2, no_wait, WQ_OK, 1);
        pop_decides(UINT32_MAX, no_wait, WQ_OK, UINT32_MAX - 1);
    }
}

static void decide_functions_agree(void)
{
    made(3);
    UP_TO(count, 3)
    {
        with_head(3, count);
        int32_t code = wq_stack_push_decide(count, 3, false, &m.first);
        EQUAL(wq_k_stack_push(&m.stack, 7), code);
        EQUAL(wq_k_stack_num_used(&m.stack), code == WQ_PUSH_STORE ? m.first : count);
        with_head(3, count);
        code = wq_stack_pop_decide(count, true, &m.first);
        EQUAL(wq_k_stack_pop(&m.stack, &m.data), code);
        EQUAL(wq_k_stack_num_used(&m.stack), code == WQ_OK ? m.first : count);
    }
}

static const struct test tests[] = {
    TEST(clean_milking_cups),
    TEST(a_new_stack_is_empty),
    TEST(a_capacity_of_0_or_above_the_memory_is_refused),
    TEST(every_bit_of_a_word_comes_back),
    TEST(what_went_in_last_comes_out_first),
    TEST(the_greatest_stack),
    TEST(malformed_stacks_are_refused),
    TEST(push_decisions),
    TEST(pop_decisions),
    TEST(decide_functions_agree),
};

const struct group stack_group = GROUP("stack", tests);
