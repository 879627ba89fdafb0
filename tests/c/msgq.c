/* The message queue.
 *
 * SPDX-License-Identifier: Apache-2.0
 */
#include <string.h>

#include "check.h"

enum { MAX, READ, USED, SIZE };

static void made(uint32_t msg_size, uint32_t max_msgs)
{
    EQUAL(wq_k_msgq_init(&m.msgq, m.buf, ROOM, msg_size, max_msgs), WQ_OK);
}

static void with_head(uint32_t max, uint32_t read, uint32_t used, uint32_t size)
{
    m.msgq.head[MAX] = max;
    m.msgq.head[READ] = read;
    m.msgq.head[USED] = used;
    m.msgq.head[SIZE] = size;
}

static void numbers(int64_t max, int64_t read, int64_t used, int64_t size)
{
    keep();
    EQUAL(wq_k_msgq_max_msgs_get(&m.msgq), max);
    EQUAL(wq_k_msgq_read_idx_get(&m.msgq), read);
    EQUAL(wq_k_msgq_num_used_get(&m.msgq), used);
    EQUAL(wq_k_msgq_msg_size_get(&m.msgq), size);
    EQUAL(wq_k_msgq_num_free_get(&m.msgq), max - used);
    EQUAL(wq_k_msgq_write_idx_get(&m.msgq), (read + used) % max);
    EQUAL(wq_k_msgq_is_full(&m.msgq), used == max);
    EQUAL(wq_k_msgq_is_empty(&m.msgq), used == 0);
    CHECK(stays());
}

static uint8_t *slot(uint32_t at) { return &m.buf[at % m.msgq.head[MAX] * m.msgq.head[SIZE]]; }

/* ---- One call, and every byte of the memory after it ------------------------------------------ */

static void put(void)
{
    const uint32_t size = m.msgq.head[SIZE], used = m.msgq.head[USED];
    const uint8_t *const at = slot(m.msgq.head[READ] + used);
    keep();
    EQUAL(wq_k_msgq_put(&m.msgq, m.src, size), WQ_OK);
    becomes(at, m.src, size);
    word_becomes(&m.msgq.head[USED], used + 1);
    CHECK(stays());
}

static void put_front(void)
{
    const uint32_t size = m.msgq.head[SIZE], used = m.msgq.head[USED], max = m.msgq.head[MAX];
    const uint32_t front = (m.msgq.head[READ] + max - 1) % max;
    const uint8_t *const at = slot(front);
    keep();
    EQUAL(wq_k_msgq_put_front(&m.msgq, m.src, size), WQ_OK);
    becomes(at, m.src, size);
    word_becomes(&m.msgq.head[READ], front);
    word_becomes(&m.msgq.head[USED], used + 1);
    CHECK(stays());
}

static void get(void)
{
    const uint32_t size = m.msgq.head[SIZE], used = m.msgq.head[USED];
    const uint32_t read = m.msgq.head[READ], next = (read + 1) % m.msgq.head[MAX];
    const uint8_t *const at = slot(read);
    keep();
    EQUAL(wq_k_msgq_get(&m.msgq, m.got, size), WQ_OK);
    becomes(m.got, at, size);
    word_becomes(&m.msgq.head[READ], next);
    word_becomes(&m.msgq.head[USED], used - 1);
    CHECK(stays());
}

static void peek(uint32_t idx)
{
    const uint32_t size = m.msgq.head[SIZE];
    const uint8_t *const at = slot(m.msgq.head[READ] + idx);
    keep();
    EQUAL(wq_k_msgq_peek_at(&m.msgq, idx, m.got, size), WQ_OK);
    becomes(m.got, at, size);
    CHECK(stays());
}

static void all_refused(uint64_t len, int32_t code)
{
    REFUSED(wq_k_msgq_put(&m.msgq, m.src, len), code);
    REFUSED(wq_k_msgq_put_front(&m.msgq, m.src, len), code);
    REFUSED(wq_k_msgq_get(&m.msgq, m.got, len), code);
    REFUSED(wq_k_msgq_peek_at(&m.msgq, 0, m.got, len), code);
    REFUSED(wq_k_msgq_peek_at(&m.msgq, UINT32_MAX, m.got, len), code);
}

/* ---- Tests ------------------------------------------------------------------------------------ */

/* Each message is a cow and its litres. The vet's goes before the others. */
static void milk_for_the_dairy(void)
{
    static const uint8_t cows[][2] = {{4, 22}, {9, 18}, {7, 25}, {1, 0}};
    made(2, 3);
    EQUAL(wq_k_msgq_put(&m.msgq, cows[0], 2), WQ_OK);
    EQUAL(wq_k_msgq_put(&m.msgq, cows[1], 2), WQ_OK);
    EQUAL(wq_k_msgq_put_front(&m.msgq, cows[3], 2), WQ_OK);
    EQUAL(wq_k_msgq_put(&m.msgq, cows[2], 2), WQ_ENOMSG);
    numbers(3, 2, 3, 2);
    EQUAL(wq_k_msgq_get(&m.msgq, m.got, 2), WQ_OK);
    CHECK(memcmp(m.got, cows[3], 2) == 0);
    EQUAL(wq_k_msgq_put(&m.msgq, cows[2], 2), WQ_OK);
    EQUAL(wq_k_msgq_peek_at(&m.msgq, 2, m.got, 2), WQ_OK);
    CHECK(memcmp(m.got, cows[2], 2) == 0);
    for (int i = 0; i < 3; i++) {
        EQUAL(wq_k_msgq_get(&m.msgq, m.got, 2), WQ_OK);
        CHECK(memcmp(m.got, cows[i], 2) == 0);
    }
    EQUAL(wq_k_msgq_get(&m.msgq, m.got, 2), WQ_ENOMSG);
    numbers(3, 0, 0, 2);
}

static void a_new_queue_is_empty(void)
{
    static const struct {
        uint32_t size, max;
        uint64_t len;
    } good[] = {{1, 1, 1}, {1, ROOM, ROOM}, {ROOM, 1, ROOM}, {4, 5, 20}, {4, 5, 21}, {64, 5, ROOM}};
    for (size_t i = 0; i < COUNT_OF(good); i++) {
        with_head(5, 4, 3, 2);
        keep();
        EQUAL(wq_k_msgq_init(&m.msgq, m.buf, good[i].len, good[i].size, good[i].max), WQ_OK);
        CHECK(m.msgq.buf == m.buf && m.msgq.buf_len == good[i].len);
        ALLOW(m.msgq.buf);
        ALLOW(m.msgq.buf_len);
        word_becomes(&m.msgq.head[MAX], good[i].max);
        word_becomes(&m.msgq.head[READ], 0);
        word_becomes(&m.msgq.head[USED], 0);
        word_becomes(&m.msgq.head[SIZE], good[i].size);
        CHECK(stays());
        numbers(good[i].max, 0, 0, good[i].size);
    }
}

/* No message or no size; products above the buffer; products above 32 bits, of which the low 32 would do. */
static const struct bad_queue {
    uint32_t size, max;
    uint64_t len;
} bad_queues[] = {
    {0, 1, ROOM},
    {1, 0, ROOM},
    {0, 0, 0},
    {0, UINT32_MAX, ROOM},
    {UINT32_MAX, 0, ROOM},
    {1, 1, 0},
    {4, 5, 19},
    {5, 4, 19},
    {UINT32_MAX, 1, UINT32_MAX - 1ull},
    {1, UINT32_MAX, UINT32_MAX - 1ull},
    {65535, 65537, UINT32_MAX - 1ull},
    {65536, 65536, ROOM},
    {65536, 65536, UINT64_MAX},
    {1u << 31, 2, 0},
    {2, 1u << 31, UINT64_MAX},
    {3, 1431655766, ROOM},
    {1431655766, 3, 1ull << 32},
    {UINT32_MAX, UINT32_MAX, ROOM},
    {UINT32_MAX, UINT32_MAX, UINT64_MAX},
};

static void a_queue_that_cannot_be_is_refused(void)
{
    for (size_t i = 0; i < COUNT_OF(bad_queues); i++) {
        const struct bad_queue *b = &bad_queues[i];
        REFUSED(wq_k_msgq_init(&m.msgq, m.buf, b->len, b->size, b->max), WQ_EINVAL);
    }
}

static void calls(uint32_t size, uint32_t max, uint32_t read, uint32_t used)
{
    fill_randomly(m.buf, max * size + 1);
    fill_randomly(m.src, size + 1);
    with_head(max, read, used, size);
    numbers(max, read, used, size);
    for (uint32_t idx = 0; idx < used; idx++)
        peek(idx);
    REFUSED(wq_k_msgq_peek_at(&m.msgq, used, m.got, size), WQ_ENOMSG);
    REFUSED(wq_k_msgq_peek_at(&m.msgq, UINT32_MAX, m.got, size), WQ_ENOMSG);
    if (used < max) {
        put();
        with_head(max, read, used, size);
        put_front();
    } else {
        REFUSED(wq_k_msgq_put(&m.msgq, m.src, size), WQ_ENOMSG);
        REFUSED(wq_k_msgq_put_front(&m.msgq, m.src, size), WQ_ENOMSG);
    }
    with_head(max, read, used, size);
    if (used > 0)
        get();
    else
        REFUSED(wq_k_msgq_get(&m.msgq, m.got, size), WQ_ENOMSG);
}

/* Every size of message, every first slot, every number of messages. */
static void every_small_queue(void)
{
    for (uint32_t size = 1; size <= 5; size++)
        for (uint32_t max = 1; max <= 4; max++) {
            made(size, max);
            UP_TO(read, max - 1) UP_TO(used, max) calls(size, max, read, used);
        }
}

static void a_long_run(uint32_t size, uint32_t max)
{
    struct held held = {.count = 0};
    made(size, max);
    for (int i = 0; i < 3000; i++) {
        const uint32_t used = (uint32_t)held.count / size;
        EQUAL(wq_k_msgq_num_used_get(&m.msgq), used);
        fill_randomly(m.src, size);
        switch (random_below(4)) {
        case 0:
            if (used == max)
                break;
            put();
            held_behind(&held, m.src, size);
            break;
        case 1:
            if (used == max)
                break;
            put_front();
            held_before(&held, m.src, size);
            break;
        case 2:
            if (used == 0)
                break;
            get();
            CHECK(memcmp(m.got, held.byte, size) == 0);
            held_leaves(&held, size);
            break;
        default:
            if (used == 0)
                break;
            const uint32_t idx = random_below(used);
            peek(idx);
            CHECK(memcmp(m.got, held.byte + idx * size, size) == 0);
        }
    }
}

static void what_goes_in_comes_out_in_that_order(void)
{
    static const uint32_t queues[][2] = {{1, 1}, {1, 7}, {3, 5}, {4, 8}, {16, 3}, {17, 3}, {64, 5}, {65, 4}, {256, 1}};
    for (size_t i = 0; i < COUNT_OF(queues); i++)
        a_long_run(queues[i][0], queues[i][1]);
}

/* That comes before full and empty. */
static void a_message_of_another_length_is_refused(void)
{
    static const uint64_t lens[] = {0, 1, 3, 5, 8, ROOM, UINT32_MAX, 1ull << 32, (1ull << 32) + 4, UINT64_MAX};
    made(4, 3);
    for (uint32_t used = 0; used <= 3; used++) {
        with_head(3, 1, used, 4);
        for (size_t i = 0; i < COUNT_OF(lens); i++)
            all_refused(lens[i], WQ_EINVAL);
    }
}

static void a_purge_empties_it_where_it_is(void)
{
    made(2, 4);
    UP_TO(read, 3) UP_TO(used, 4)
    {
        with_head(4, read, used, 2);
        keep();
        EQUAL(wq_k_msgq_purge(&m.msgq), used);
        word_becomes(&m.msgq.head[READ], (read + used) % 4);
        word_becomes(&m.msgq.head[USED], 0);
        CHECK(stays());
        numbers(4, (read + used) % 4, 0, 2);
    }
}

/* The greatest products, and sums beyond 32 bits. */
static void the_greatest_queues(void)
{
    static uint8_t message[65535];
    uint8_t *const all = huge();
    const uint32_t last = UINT32_MAX - 1;
    EQUAL(wq_k_msgq_init(&m.msgq, all, UINT32_MAX, UINT32_MAX, 1), WQ_OK);
    numbers(1, 0, 0, UINT32_MAX);
    EQUAL(wq_k_msgq_init(&m.msgq, all, UINT32_MAX, sizeof message, 65537), WQ_OK);
    numbers(65537, 0, 0, sizeof message);
    with_head(65537, 65535, 1, sizeof message);
    fill_randomly(message, sizeof message);
    EQUAL(wq_k_msgq_put(&m.msgq, message, sizeof message), WQ_OK);
    CHECK(memcmp(all + UINT32_MAX - sizeof message, message, sizeof message) == 0);

    EQUAL(wq_k_msgq_init(&m.msgq, all, HUGE_LEN, 1, UINT32_MAX), WQ_OK);
    numbers(UINT32_MAX, 0, 0, 1);
    with_head(UINT32_MAX, last, UINT32_MAX - 4, 1);
    numbers(UINT32_MAX, last, UINT32_MAX - 4, 1);
    memcpy(all + last - 4, "<abcd", 5);
    memcpy(all, "efg>", 4);
    EQUAL(wq_k_msgq_put(&m.msgq, (const uint8_t *)"A", 1), WQ_OK);
    EQUAL(wq_k_msgq_put_front(&m.msgq, (const uint8_t *)"C", 1), WQ_OK);
    CHECK(memcmp(all + last - 4, "AabCd", 5) == 0 && memcmp(all, "efg>", 4) == 0);
    numbers(UINT32_MAX, last - 1, UINT32_MAX - 2, 1);
    EQUAL(wq_k_msgq_peek_at(&m.msgq, last - 2, m.got, 1), WQ_OK);
    EQUAL(m.got[0], 'A');
    EQUAL(wq_k_msgq_peek_at(&m.msgq, 3, m.got, 1), WQ_OK);
    EQUAL(m.got[0], 'f');
    EQUAL(wq_k_msgq_get(&m.msgq, m.got, 1), WQ_OK);
    EQUAL(m.got[0], 'C');
    EQUAL(wq_k_msgq_get(&m.msgq, m.got, 1), WQ_OK);
    EQUAL(m.got[0], 'd');
    numbers(UINT32_MAX, 0, UINT32_MAX - 4, 1);
    with_head(UINT32_MAX, last, UINT32_MAX - 4, 1);
    EQUAL(wq_k_msgq_purge(&m.msgq), UINT32_MAX - 4ll);
    numbers(UINT32_MAX, UINT32_MAX - 5, 0, 1);
}

static void refused_by_all(uint32_t max, uint32_t read, uint32_t used, uint32_t size, uint64_t len)
{
    with_head(max, read, used, size);
    m.msgq.buf_len = len;
    all_refused(size, WQ_EINVAL);
    all_refused(0, WQ_EINVAL);
    REFUSED(wq_k_msgq_purge(&m.msgq), WQ_EINVAL);
    REFUSED(wq_k_msgq_num_free_get(&m.msgq), WQ_EINVAL);
    REFUSED(wq_k_msgq_num_used_get(&m.msgq), WQ_EINVAL);
    REFUSED(wq_k_msgq_msg_size_get(&m.msgq), WQ_EINVAL);
    REFUSED(wq_k_msgq_max_msgs_get(&m.msgq), WQ_EINVAL);
    REFUSED(wq_k_msgq_read_idx_get(&m.msgq), WQ_EINVAL);
    REFUSED(wq_k_msgq_write_idx_get(&m.msgq), WQ_EINVAL);
    REFUSED(wq_k_msgq_is_full(&m.msgq), WQ_EINVAL);
    REFUSED(wq_k_msgq_is_empty(&m.msgq), WQ_EINVAL);
}

static void malformed_queues_are_refused(void)
{
    static const uint32_t above[] = {4, 5, 1u << 31, UINT32_MAX};
    made(4, 4);
    for (size_t i = 0; i < COUNT_OF(above); i++) {
        refused_by_all(4, above[i], 0, 4, ROOM);
        refused_by_all(4, above[i], 4, 4, ROOM);
        if (above[i] > 4) {
            refused_by_all(4, 0, above[i], 4, ROOM);
            refused_by_all(4, 3, above[i], 4, ROOM);
        }
    }
    for (size_t i = 0; i < COUNT_OF(bad_queues); i++) {
        const struct bad_queue *b = &bad_queues[i];
        refused_by_all(b->max, 0, 0, b->size, b->len);
        refused_by_all(b->max, 0, b->max, b->size, b->len);
        refused_by_all(b->max, 0, 1, b->size, b->len);
    }
}

/* ---- Decisions -------------------------------------------------------------------------------- */

enum { SMALL = 4 };

static void put_decisions(void)
{
    UP_TO(write, SMALL) UP_TO(used, SMALL) UP_TO(max, SMALL) UP_TO(waiter, 1) UP_TO(no_wait, 1)
    {
        int32_t code = WQ_PUT_STORE;
        uint32_t new_write = (write + 1) % (max + (max == 0)), new_used = used + 1;
        if (max == 0 || write >= max || used > max || (waiter && used > 0)) {
            code = WQ_EINVAL;
        } else if (waiter || used == max) {
            code = waiter ? WQ_PUT_WAKE_READER : no_wait ? WQ_ENOMSG : WQ_PUT_PEND;
            new_write = write;
            new_used = used;
        }
        DECIDES(wq_msgq_put_decide(write, used, max, waiter, no_wait, BOTH), code, new_write, new_used);
    }
    const uint32_t most = UINT32_MAX;
    DECIDES(wq_msgq_put_decide(most - 2, most - 1, most, false, true, BOTH), WQ_PUT_STORE, most - 1, most);
    DECIDES(wq_msgq_put_decide(most - 1, 0, most, false, true, BOTH), WQ_PUT_STORE, 0, 1);
    DECIDES(wq_msgq_put_decide(most - 1, most, most, false, false, BOTH), WQ_PUT_PEND, most - 1, most);
    DECIDES(wq_msgq_put_decide(most, 0, most, false, false, BOTH), WQ_EINVAL, 0, 0);
    DECIDES(wq_msgq_put_decide(0, most, most - 1, false, false, BOTH), WQ_EINVAL, 0, 0);
}

static void get_decisions(void)
{
    UP_TO(read, SMALL) UP_TO(used, SMALL) UP_TO(max, SMALL) UP_TO(waiter, 1) UP_TO(no_wait, 1)
    {
        int32_t code = waiter ? WQ_GET_WAKE_WRITER : WQ_GET_READ;
        uint32_t new_read = (read + 1) % (max + (max == 0)), new_used = used - 1;
        if (max == 0 || read >= max || used > max || (waiter && used < max)) {
            code = WQ_EINVAL;
        } else if (used == 0) {
            code = no_wait ? WQ_ENOMSG : WQ_GET_PEND;
            new_read = read;
            new_used = 0;
        }
        DECIDES(wq_msgq_get_decide(read, used, max, waiter, no_wait, BOTH), code, new_read, new_used);
    }
    const uint32_t most = UINT32_MAX;
    DECIDES(wq_msgq_get_decide(most - 2, most, most, true, true, BOTH), WQ_GET_WAKE_WRITER, most - 1, most - 1);
    DECIDES(wq_msgq_get_decide(most - 1, 1, most, false, false, BOTH), WQ_GET_READ, 0, 0);
    DECIDES(wq_msgq_get_decide(most, 1, most, false, false, BOTH), WQ_EINVAL, 0, 0);
    DECIDES(wq_msgq_get_decide(0, most, most - 1, false, false, BOTH), WQ_EINVAL, 0, 0);
}

static void put_front_decisions(void)
{
    UP_TO(read, SMALL) UP_TO(used, SMALL) UP_TO(max, SMALL)
    {
        const bool malformed = max == 0 || read >= max || used > max;
        DECIDES(wq_msgq_put_front_decide(read, used, max, BOTH),
                malformed ? WQ_EINVAL : used == max ? WQ_ENOMSG : WQ_OK, read == 0 ? max - 1 : read - 1, used + 1);
    }
    const uint32_t most = UINT32_MAX;
    DECIDES(wq_msgq_put_front_decide(0, most - 1, most, BOTH), WQ_OK, most - 1, most);
    DECIDES(wq_msgq_put_front_decide(most - 1, 0, most, BOTH), WQ_OK, most - 2, 1);
    DECIDES(wq_msgq_put_front_decide(0, most, most, BOTH), WQ_ENOMSG, 0, 0);
}

static void peeks(uint32_t read, uint32_t used, uint32_t max, uint32_t idx, int32_t code, uint32_t at)
{
    DECIDES_ONE(wq_msgq_peek_at_decide(read, used, max, idx, &m.first), code, at);
}

static void peek_decisions(void)
{
    UP_TO(read, SMALL) UP_TO(used, SMALL) UP_TO(max, SMALL) UP_TO(idx, SMALL)
    {
        const bool malformed = max == 0 || read >= max || used > max;
        peeks(read, used, max, idx, malformed ? WQ_EINVAL : idx >= used ? WQ_ENOMSG : WQ_OK,
              (read + idx) % (max + (max == 0)));
    }
    const uint32_t most = UINT32_MAX;
    peeks(most - 1, most, most, most - 1, WQ_OK, most - 2);
    peeks(most - 1, most, most, 1, WQ_OK, 0);
    peeks(most - 2, most, most, 1, WQ_OK, most - 1);
    peeks(0, most, most, most, WQ_ENOMSG, 0);
    peeks(0, 1, most, most, WQ_ENOMSG, 0);
}

static void decide_functions_agree(void)
{
    enum { MOST = 3 };
    made(2, MOST);
    UP_TO(read, MOST - 1) UP_TO(used, MOST)
    {
        const uint32_t write = (read + used) % MOST;
        with_head(MOST, read, used, 2);
        EQUAL(wq_msgq_put_decide(write, used, MOST, false, true, BOTH),
              wq_k_msgq_put(&m.msgq, m.src, 2));
        if (used < MOST) {
            EQUAL(m.first, wq_k_msgq_write_idx_get(&m.msgq));
            EQUAL(m.second, wq_k_msgq_num_used_get(&m.msgq));
        }
        with_head(MOST, read, used, 2);
        EQUAL(wq_msgq_put_front_decide(read, used, MOST, BOTH),
              wq_k_msgq_put_front(&m.msgq, m.src, 2));
        if (used < MOST) {
            EQUAL(m.first, wq_k_msgq_read_idx_get(&m.msgq));
            EQUAL(m.second, wq_k_msgq_num_used_get(&m.msgq));
        }
        with_head(MOST, read, used, 2);
        EQUAL(wq_msgq_get_decide(read, used, MOST, false, true, BOTH),
              wq_k_msgq_get(&m.msgq, m.got, 2));
        if (used > 0) {
            EQUAL(m.first, wq_k_msgq_read_idx_get(&m.msgq));
            EQUAL(m.second, wq_k_msgq_num_used_get(&m.msgq));
        }
    }
}

static const struct test tests[] = {
    TEST(milk_for_the_dairy),
    TEST(a_new_queue_is_empty),
    TEST(a_queue_that_cannot_be_is_refused),
    TEST(every_small_queue),
    TEST(what_goes_in_comes_out_in_that_order),
    TEST(a_message_of_another_length_is_refused),
    TEST(a_purge_empties_it_where_it_is),
    TEST(the_greatest_queues),
    TEST(malformed_queues_are_refused),
    TEST(put_decisions),
    TEST(get_decisions),
    TEST(put_front_decisions),
    TEST(peek_decisions),
    TEST(decide_functions_agree),
};

const struct group msgq_group = GROUP("msgq", tests);
