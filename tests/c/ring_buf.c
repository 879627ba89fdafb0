/* The ring buffer.
 *
 * SPDX-License-Identifier: Apache-2.0
 */
#include <string.h>

#include "check.h"

enum { CAPACITY, START, SIZE };

static void made(uint32_t capacity) { EQUAL(wq_k_ring_buf_init(&m.ring, m.buf, ROOM, capacity), WQ_OK); }

static void with_head(uint32_t capacity, uint32_t start, uint32_t size)
{
    m.ring.head[CAPACITY] = capacity;
    m.ring.head[START] = start;
    m.ring.head[SIZE] = size;
}

static void numbers(int64_t capacity, int64_t start, int64_t size)
{
    keep();
    EQUAL(wq_k_ring_buf_capacity_get(&m.ring), capacity);
    EQUAL(wq_k_ring_buf_size_get(&m.ring), size);
    EQUAL(wq_k_ring_buf_space_get(&m.ring), capacity - size);
    EQUAL(wq_k_ring_buf_head_get(&m.ring), start);
    EQUAL(wq_k_ring_buf_tail_get(&m.ring), (start + size) % capacity);
    EQUAL(wq_k_ring_buf_is_empty(&m.ring), size == 0);
    EQUAL(wq_k_ring_buf_is_full(&m.ring), size == capacity);
    CHECK(stays());
}

static int64_t put_n(const uint8_t *src, uint64_t len) { return wq_k_ring_buf_put_n(&m.ring, src, len); }

static int64_t get_n(uint8_t *out, uint64_t len) { return wq_k_ring_buf_get_n(&m.ring, out, len); }

static const struct ring many = {m.ring.head, put_n, get_n, lesser, lesser};

/* A single byte goes by calls of its own, which answer WQ_OK for 1. */
static int64_t one_if_ok(int32_t code) { return code == WQ_OK ? 1 : code; }

static int64_t put(const uint8_t *src, uint64_t len)
{
    return len == 1 ? one_if_ok(wq_k_ring_buf_put(&m.ring, *src)) : 0;
}

static int64_t get(uint8_t *out, uint64_t len) { return len == 1 ? one_if_ok(wq_k_ring_buf_get(&m.ring, out)) : 0; }

static int64_t one_or_again(uint64_t len, uint32_t most) { return len != 1 ? 0 : most > 0 ? 1 : WQ_EAGAIN; }

static const struct ring single = {m.ring.head, put, get, one_or_again, one_or_again};

/* The meter sends bytes as the milk flows, and the display takes lines of them when it has time. */
static void the_line_of_a_milk_meter(void)
{
    static const uint8_t sent[] = "8.2l 9.1l";
    made(6);
    EQUAL(wq_k_ring_buf_put_n(&m.ring, sent, 5), 5);
    EQUAL(wq_k_ring_buf_put_n(&m.ring, sent + 5, 4), 1);
    EQUAL(wq_k_ring_buf_put(&m.ring, '.'), WQ_EAGAIN);
    EQUAL(wq_k_ring_buf_peek_at(&m.ring, 4, &m.byte), WQ_OK);
    EQUAL(m.byte, ' ');
    EQUAL(wq_k_ring_buf_get_n(&m.ring, m.got, 5), 5);
    CHECK(memcmp(m.got, "8.2l ", 5) == 0);
    EQUAL(wq_k_ring_buf_put_n(&m.ring, sent + 6, 3), 3);
    numbers(6, 5, 4);
    EQUAL(wq_k_ring_buf_get(&m.ring, &m.byte), WQ_OK);
    EQUAL(m.byte, '9');
    EQUAL(wq_k_ring_buf_get_n(&m.ring, m.got, ROOM), 3);
    CHECK(memcmp(m.got, ".1l", 3) == 0);
    EQUAL(wq_k_ring_buf_get(&m.ring, &m.byte), WQ_EAGAIN);
    numbers(6, 3, 0);
}

static void a_new_ring_is_empty(void)
{
    static const struct sized good[] = {{1, 1}, {1, ROOM}, {8, 8}, {8, 9}, {ROOM - 1, ROOM}, {ROOM, ROOM}};
    for (size_t i = 0; i < COUNT_OF(good); i++) {
        with_head(5, 4, 3);
        keep();
        EQUAL(wq_k_ring_buf_init(&m.ring, m.buf, good[i].len, good[i].size), WQ_OK);
        CHECK(m.ring.buf == m.buf && m.ring.buf_len == good[i].len);
        ALLOW(m.ring.buf);
        ALLOW(m.ring.buf_len);
        word_becomes(&m.ring.head[CAPACITY], good[i].size);
        word_becomes(&m.ring.head[START], 0);
        word_becomes(&m.ring.head[SIZE], 0);
        CHECK(stays());
        numbers(good[i].size, 0, 0);
    }
}

static void a_capacity_of_0_or_above_the_buffer_is_refused(void)
{
    for (size_t i = 0; i < BAD_SIZES; i++)
        REFUSED(wq_k_ring_buf_init(&m.ring, m.buf, bad_sizes[i].len, bad_sizes[i].size), WQ_EINVAL);
}

/* Lengths and sums beyond 32 bits. */
static void the_greatest_ring(void)
{
    uint8_t *const all = huge();
    const uint32_t last = UINT32_MAX - 1;
    EQUAL(wq_k_ring_buf_init(&m.ring, all, UINT32_MAX, UINT32_MAX), WQ_OK);
    numbers(UINT32_MAX, 0, 0);
    EQUAL(wq_k_ring_buf_init(&m.ring, all, HUGE_LEN, UINT32_MAX), WQ_OK);
    EQUAL(wq_k_ring_buf_init(&m.ring, all, (1ull << 32) + 2, 8), WQ_OK);
    numbers(8, 0, 0);

    EQUAL(wq_k_ring_buf_init(&m.ring, all, HUGE_LEN, UINT32_MAX), WQ_OK);
    with_head(UINT32_MAX, last, UINT32_MAX - 4);
    numbers(UINT32_MAX, last, UINT32_MAX - 4);
    memcpy(all + last - 4, "<abcd", 5);
    memcpy(all, "efg>", 4);
    EQUAL(wq_k_ring_buf_put(&m.ring, 'A'), WQ_OK);
    EQUAL(wq_k_ring_buf_put_n(&m.ring, (const uint8_t *)"BC", 2), 2);
    CHECK(memcmp(all + last - 4, "ABCcd", 5) == 0 && memcmp(all, "efg>", 4) == 0);
    numbers(UINT32_MAX, last, UINT32_MAX - 1);
    EQUAL(wq_k_ring_buf_peek_at(&m.ring, last - 1, &m.byte), WQ_OK);
    EQUAL(m.byte, 'C');
    EQUAL(wq_k_ring_buf_peek_at(&m.ring, 1, &m.byte), WQ_OK);
    EQUAL(m.byte, 'e');
    EQUAL(wq_k_ring_buf_get_n(&m.ring, m.got, 3), 3);
    CHECK(memcmp(m.got, "def", 3) == 0);
    numbers(UINT32_MAX, 2, UINT32_MAX - 4);
    with_head(UINT32_MAX, last, 1);
    EQUAL(wq_k_ring_buf_get(&m.ring, &m.byte), WQ_OK);
    EQUAL(m.byte, 'd');
    numbers(UINT32_MAX, 0, 0);
}

static void any_bytes_into_and_out_of_any_small_ring(void)
{
    made(1);
    every_small_ring(&many);
    every_small_ring(&single);
}

static void what_goes_in_comes_out_in_that_order(void)
{
    static const uint32_t capacities[] = {1, 2, 7, 64, 100, ROOM};
    for (size_t i = 0; i < COUNT_OF(capacities); i++) {
        made(capacities[i]);
        long_run_of_ring(&many, capacities[i]);
        made(capacities[i]);
        long_run_of_ring(&single, capacities[i]);
    }
}

static void single_bytes_until_it_is_full_and_empty(void)
{
    made(3);
    for (uint8_t i = 0; i < 3; i++) {
        numbers(3, 0, i);
        EQUAL(wq_k_ring_buf_put(&m.ring, i + 10), WQ_OK);
    }
    numbers(3, 0, 3);
    REFUSED(wq_k_ring_buf_put(&m.ring, 13), WQ_EAGAIN);
    for (uint8_t i = 0; i < 3; i++) {
        EQUAL(wq_k_ring_buf_get(&m.ring, &m.byte), WQ_OK);
        EQUAL(m.byte, i + 10);
        numbers(3, (i + 1) % 3, 2 - i);
    }
    REFUSED(wq_k_ring_buf_get(&m.ring, &m.byte), WQ_EAGAIN);
}

static void lengths_beyond_32_bits(void)
{
    made(7);
    longer_than_32_bits(&many);
}

static void a_look_at_every_byte(void)
{
    made(5);
    fill_randomly(m.buf, 6);
    UP_TO(start, 4) UP_TO(size, 5)
    {
        with_head(5, start, size);
        numbers(5, start, size);
        for (uint32_t idx = 0; idx < size; idx++) {
            keep();
            EQUAL(wq_k_ring_buf_peek_at(&m.ring, idx, &m.byte), WQ_OK);
            becomes(&m.byte, &m.buf[(start + idx) % 5], 1);
            CHECK(stays());
        }
        REFUSED(wq_k_ring_buf_peek_at(&m.ring, size, &m.byte), WQ_EINVAL);
        REFUSED(wq_k_ring_buf_peek_at(&m.ring, size + 1, &m.byte), WQ_EINVAL);
        REFUSED(wq_k_ring_buf_peek_at(&m.ring, UINT32_MAX, &m.byte), WQ_EINVAL);
    }
}

static void a_reset_ring_starts_at_the_front(void)
{
    made(5);
    UP_TO(start, 4) UP_TO(size, 5)
    {
        with_head(5, start, size);
        keep();
        EQUAL(wq_k_ring_buf_reset(&m.ring), WQ_OK);
        word_becomes(&m.ring.head[START], 0);
        word_becomes(&m.ring.head[SIZE], 0);
        CHECK(stays());
        numbers(5, 0, 0);
    }
}

static void malformed_rings_are_refused(void)
{
    made(8);
    for (size_t i = 0; i < MALFORMED_RINGS; i++) {
        memcpy(m.ring.head, malformed_rings[i].head, sizeof m.ring.head);
        m.ring.buf_len = malformed_rings[i].len;
        REFUSED(wq_k_ring_buf_put(&m.ring, 1), WQ_EINVAL);
        REFUSED(wq_k_ring_buf_get(&m.ring, &m.byte), WQ_EINVAL);
        for (uint64_t len = 0; len <= 9; len++) {
            REFUSED(wq_k_ring_buf_put_n(&m.ring, m.src, len), WQ_EINVAL);
            REFUSED(wq_k_ring_buf_get_n(&m.ring, m.got, len), WQ_EINVAL);
            REFUSED(wq_k_ring_buf_peek_at(&m.ring, (uint32_t)len, &m.byte), WQ_EINVAL);
        }
        REFUSED(wq_k_ring_buf_reset(&m.ring), WQ_EINVAL);
        REFUSED(wq_k_ring_buf_size_get(&m.ring), WQ_EINVAL);
        REFUSED(wq_k_ring_buf_space_get(&m.ring), WQ_EINVAL);
        REFUSED(wq_k_ring_buf_capacity_get(&m.ring), WQ_EINVAL);
        REFUSED(wq_k_ring_buf_head_get(&m.ring), WQ_EINVAL);
        REFUSED(wq_k_ring_buf_tail_get(&m.ring), WQ_EINVAL);
        REFUSED(wq_k_ring_buf_is_empty(&m.ring), WQ_EINVAL);
        REFUSED(wq_k_ring_buf_is_full(&m.ring), WQ_EINVAL);
    }
}

static void claims(uint32_t head, uint32_t base, uint32_t size, uint32_t requested, int64_t answer, uint32_t offset)
{
    DECIDES_ONE(wq_ring_buf_claim_decide(head, base, size, requested, &m.first), answer, offset);
}

static void what_can_be_claimed_in_one_piece(void)
{
    claims(0, 0, 0, 0, 0, 0);
    claims(9, 2, 0, 5, 0, 0);
    for (uint32_t size = 1; size <= 6; size++)
        for (uint32_t apart = 0; apart < 3 * size; apart++)
            for (uint32_t requested = 0; requested <= size + 1; requested++) {
                const uint32_t offset = apart % size, piece = size - offset;
                const uint32_t answer = requested < piece ? requested : piece;
                claims(apart, 0, size, requested, answer, offset);
                claims(apart - 7, UINT32_MAX - 6, size, requested, answer, offset);
                claims(apart + 9, 9, size, requested, answer, offset);
            }
    claims(0, 1, 8, 8, 1, 7);
    claims(UINT32_MAX, 0, UINT32_MAX, UINT32_MAX, UINT32_MAX, 0);
    claims(UINT32_MAX - 1, 0, UINT32_MAX, UINT32_MAX, 1, UINT32_MAX - 1);
    claims(4, 4, UINT32_MAX, UINT32_MAX, UINT32_MAX, 0);
    claims(UINT32_MAX, 0, 1u << 31, UINT32_MAX, 1, (1u << 31) - 1);
}

static void what_was_claimed_can_be_finished(void)
{
    static const uint32_t tails[] = {0, 1, 5, 1u << 31, UINT32_MAX - 1, UINT32_MAX};
    for (size_t i = 0; i < COUNT_OF(tails); i++) {
        for (uint32_t claimed = 0; claimed < 5; claimed++)
            for (uint32_t size = 0; size < 7; size++)
                EQUAL(wq_ring_buf_finish_decide(tails[i] + claimed, tails[i], size), size <= claimed);
        CHECK(wq_ring_buf_finish_decide(tails[i] - 1, tails[i], UINT32_MAX));
        CHECK(!wq_ring_buf_finish_decide(tails[i] - 2, tails[i], UINT32_MAX));
    }
}

static void what_free_counters_say(void)
{
    static const uint32_t from[] = {0, 1, 5, 1u << 31, UINT32_MAX - 1, UINT32_MAX};
    for (size_t i = 0; i < COUNT_OF(from); i++) {
        for (uint32_t held = 0; held < 9; held++) {
            EQUAL(wq_ring_buf_size_get_decide(from[i] + held, from[i]), held);
            for (uint32_t size = 0; size < 9; size++)
                EQUAL(wq_ring_buf_space_get_decide(from[i] + held, from[i], size), held <= size ? size - held : 0);
        }
        EQUAL(wq_ring_buf_size_get_decide(from[i] - 1, from[i]), UINT32_MAX);
        EQUAL(wq_ring_buf_space_get_decide(from[i] - 1, from[i], UINT32_MAX), 0);
        EQUAL(wq_ring_buf_space_get_decide(from[i] - 1, from[i], UINT32_MAX - 1), 0);
        EQUAL(wq_ring_buf_space_get_decide(from[i] - 2, from[i], UINT32_MAX), 1);
        EQUAL(wq_ring_buf_space_get_decide(from[i], from[i], UINT32_MAX), UINT32_MAX);
    }
}

/* The counters of a ring: how many bytes ever went in, and came out. */
static void decide_functions_agree(void)
{
    uint32_t in = 0, out = 0;
    made(7);
    for (int i = 0; i < 500; i++) {
        EQUAL(wq_ring_buf_size_get_decide(in, out), wq_k_ring_buf_size_get(&m.ring));
        EQUAL(wq_ring_buf_space_get_decide(in, out, 7), wq_k_ring_buf_space_get(&m.ring));
        claims(in, 0, 7, 1, 1, (uint32_t)wq_k_ring_buf_tail_get(&m.ring));
        claims(out, 0, 7, 1, 1, (uint32_t)wq_k_ring_buf_head_get(&m.ring));
        if (random_below(2) == 0)
            in += (uint32_t)wq_k_ring_buf_put_n(&m.ring, m.src, random_below(5));
        else
            out += (uint32_t)wq_k_ring_buf_get_n(&m.ring, m.got, random_below(5));
    }
}

static const struct test tests[] = {
    TEST(the_line_of_a_milk_meter),
    TEST(a_new_ring_is_empty),
    TEST(a_capacity_of_0_or_above_the_buffer_is_refused),
    TEST(the_greatest_ring),
    TEST(any_bytes_into_and_out_of_any_small_ring),
    TEST(what_goes_in_comes_out_in_that_order),
    TEST(single_bytes_until_it_is_full_and_empty),
    TEST(lengths_beyond_32_bits),
    TEST(a_look_at_every_byte),
    TEST(a_reset_ring_starts_at_the_front),
    TEST(malformed_rings_are_refused),
    TEST(what_can_be_claimed_in_one_piece),
    TEST(what_was_claimed_can_be_finished),
    TEST(what_free_counters_say),
    TEST(decide_functions_agree),
};

const struct group ring_buf_group = GROUP("ring_buf", tests);
