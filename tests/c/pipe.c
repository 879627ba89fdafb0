/* The pipe.
 *
 * SPDX-License-Identifier: Apache-2.0
 */
#include <string.h>

#include "check.h"

enum { SIZE, START, USED, FLAGS };
enum { CLOSED = 0, OPEN = WQ_FLAG_OPEN, RESET = WQ_FLAG_RESET, ALL = OPEN | RESET };

static void made(uint32_t size) { EQUAL(wq_k_pipe_init(&m.pipe, m.buf, ROOM, size), WQ_OK); }

static void with_head(uint32_t size, uint32_t start, uint32_t used, uint32_t flags)
{
    m.pipe.head[SIZE] = size;
    m.pipe.head[START] = start;
    m.pipe.head[USED] = used;
    m.pipe.head[FLAGS] = flags;
}

static void numbers(int64_t size, int64_t used, uint32_t flags)
{
    keep();
    EQUAL(wq_k_pipe_size(&m.pipe), size);
    EQUAL(wq_k_pipe_data_get(&m.pipe), used);
    EQUAL(wq_k_pipe_space_get(&m.pipe), size - used);
    EQUAL(wq_k_pipe_is_empty(&m.pipe), used == 0);
    EQUAL(wq_k_pipe_is_full(&m.pipe), used == size);
    EQUAL(wq_k_pipe_is_open(&m.pipe), flags == OPEN || flags == ALL);
    EQUAL(wq_k_pipe_is_resetting(&m.pipe), flags == RESET || flags == ALL);
    CHECK(stays());
}

static int64_t write(const uint8_t *src, uint64_t len) { return wq_k_pipe_write(&m.pipe, src, len); }

static int64_t read(uint8_t *out, uint64_t len) { return wq_k_pipe_read(&m.pipe, out, len); }

/* Of two refusals the first is answered. */
static int64_t write_answer(uint64_t len, uint32_t space)
{
    const uint32_t flags = m.pipe.head[FLAGS];
    return flags >= RESET ? WQ_ECANCELED
           : flags == CLOSED ? WQ_EPIPE
           : len == 0        ? WQ_ENOMSG
           : space == 0      ? WQ_EAGAIN
                             : lesser(len, space);
}

static int64_t read_answer(uint64_t len, uint32_t used)
{
    const uint32_t flags = m.pipe.head[FLAGS];
    return flags >= RESET ? WQ_ECANCELED
           : len == 0     ? WQ_ENOMSG
           : used > 0     ? lesser(len, used)
                          : flags == CLOSED ? WQ_EPIPE : WQ_EAGAIN;
}

static const struct ring ring = {m.pipe.head, write, read, write_answer, read_answer};

/* All or nothing. */
static int64_t write_all(const uint8_t *src, uint64_t len) { return wq_k_pipe_write_all(&m.pipe, src, len); }

static int64_t read_all(uint8_t *out, uint64_t len) { return wq_k_pipe_read_all(&m.pipe, out, len); }

static int64_t write_all_answer(uint64_t len, uint32_t space)
{
    const uint32_t flags = m.pipe.head[FLAGS];
    return flags >= RESET              ? WQ_ECANCELED
           : flags == CLOSED           ? WQ_EPIPE
           : len == 0                  ? WQ_ENOMSG
           : len > m.pipe.head[SIZE]   ? WQ_EINVAL
           : len > space               ? WQ_EAGAIN
                                       : (int64_t)len;
}

static int64_t read_all_answer(uint64_t len, uint32_t used)
{
    const uint32_t flags = m.pipe.head[FLAGS];
    return flags >= RESET            ? WQ_ECANCELED
           : len == 0                ? WQ_ENOMSG
           : len <= used             ? (int64_t)len
           : flags == CLOSED         ? WQ_EPIPE
           : len > m.pipe.head[SIZE] ? WQ_EINVAL
                                     : WQ_EAGAIN;
}

static const struct ring whole = {m.pipe.head, write_all, read_all, write_all_answer, read_all_answer};

/* The barn logs into the pipe, and the radio sends what is there. A new day drops what was not sent. */
static void the_log_of_a_barn(void)
{
    made(8);
    EQUAL(wq_k_pipe_read(&m.pipe, m.got, ROOM), WQ_EAGAIN);
    EQUAL(wq_k_pipe_write(&m.pipe, (const uint8_t *)"gate open", 9), 8);
    EQUAL(wq_k_pipe_write(&m.pipe, (const uint8_t *)"n", 1), WQ_EAGAIN);
    EQUAL(wq_k_pipe_read(&m.pipe, m.got, 5), 5);
    CHECK(memcmp(m.got, "gate ", 5) == 0);
    EQUAL(wq_k_pipe_write(&m.pipe, (const uint8_t *)"n", 1), 1);
    numbers(8, 4, OPEN);

    EQUAL(wq_k_pipe_reset(&m.pipe), WQ_OK);
    EQUAL(wq_k_pipe_write(&m.pipe, (const uint8_t *)"n", 1), WQ_ECANCELED);
    EQUAL(wq_k_pipe_read(&m.pipe, m.got, 5), WQ_ECANCELED);
    EQUAL(wq_k_pipe_clear_reset(&m.pipe), WQ_OK);
    EQUAL(wq_k_pipe_write(&m.pipe, (const uint8_t *)"shut", 4), 4);
    EQUAL(wq_k_pipe_close(&m.pipe), WQ_OK);
    EQUAL(wq_k_pipe_write(&m.pipe, (const uint8_t *)"n", 1), WQ_EPIPE);
    EQUAL(wq_k_pipe_read(&m.pipe, m.got, 5), 4);
    CHECK(memcmp(m.got, "shut", 4) == 0);
    EQUAL(wq_k_pipe_read(&m.pipe, m.got, 5), WQ_EPIPE);
}

static void a_new_pipe_is_open_and_empty(void)
{
    static const struct sized good[] = {{1, 1}, {1, ROOM}, {8, 8}, {8, 9}, {ROOM, ROOM}};
    for (size_t i = 0; i < COUNT_OF(good); i++) {
        with_head(5, 4, 3, ALL);
        keep();
        EQUAL(wq_k_pipe_init(&m.pipe, m.buf, good[i].len, good[i].size), WQ_OK);
        CHECK(m.pipe.buf == m.buf && m.pipe.buf_len == good[i].len);
        ALLOW(m.pipe.buf);
        ALLOW(m.pipe.buf_len);
        word_becomes(&m.pipe.head[SIZE], good[i].size);
        word_becomes(&m.pipe.head[START], 0);
        word_becomes(&m.pipe.head[USED], 0);
        word_becomes(&m.pipe.head[FLAGS], OPEN);
        CHECK(stays());
        numbers(good[i].size, 0, OPEN);
    }
}

static void a_size_of_0_or_above_the_buffer_is_refused(void)
{
    for (size_t i = 0; i < BAD_SIZES; i++)
        REFUSED(wq_k_pipe_init(&m.pipe, m.buf, bad_sizes[i].len, bad_sizes[i].size), WQ_EINVAL);
}

/* Every length, with every flag: all refusals, in their order. */
static void any_bytes_into_and_out_of_any_small_pipe(void)
{
    made(1);
    for (uint32_t flags = CLOSED; flags <= ALL; flags++) {
        m.pipe.head[FLAGS] = flags;
        every_small_ring(&ring);
    }
}

static void what_goes_in_comes_out_in_that_order(void)
{
    static const uint32_t sizes[] = {1, 7, 64, 100, ROOM};
    for (size_t i = 0; i < COUNT_OF(sizes); i++) {
        made(sizes[i]);
        long_run_of_ring(&ring, sizes[i]);
    }
}

static void lengths_beyond_32_bits(void)
{
    made(7);
    longer_than_32_bits(&ring);
}

static void all_or_nothing_in_any_small_pipe(void)
{
    made(1);
    for (uint32_t flags = CLOSED; flags <= ALL; flags++) {
        m.pipe.head[FLAGS] = flags;
        every_small_ring(&whole);
    }
}

/* Half a frame is worse than none. */
static void frames_of_a_camera(void)
{
    made(8);
    EQUAL(wq_k_pipe_write_all(&m.pipe, (const uint8_t *)"frame", 5), 5);
    REFUSED(wq_k_pipe_write_all(&m.pipe, (const uint8_t *)"frame", 5), WQ_EAGAIN);
    REFUSED(wq_k_pipe_write_all(&m.pipe, (const uint8_t *)"too long!", 9), WQ_EINVAL);
    EQUAL(wq_k_pipe_write_all(&m.pipe, (const uint8_t *)"end", 3), 3);
    REFUSED(wq_k_pipe_read_all(&m.pipe, m.got, 9), WQ_EINVAL);
    EQUAL(wq_k_pipe_read_all(&m.pipe, m.got, 5), 5);
    CHECK(memcmp(m.got, "frame", 5) == 0);
    REFUSED(wq_k_pipe_read_all(&m.pipe, m.got, 4), WQ_EAGAIN);
    EQUAL(wq_k_pipe_close(&m.pipe), WQ_OK);
    REFUSED(wq_k_pipe_read_all(&m.pipe, m.got, 4), WQ_EPIPE);
    REFUSED(wq_k_pipe_write_all(&m.pipe, (const uint8_t *)"n", 1), WQ_EPIPE);
    EQUAL(wq_k_pipe_read_all(&m.pipe, m.got, 3), 3);
    CHECK(memcmp(m.got, "end", 3) == 0);
}

/* Sums beyond 32 bits. */
static void the_greatest_pipe(void)
{
    uint8_t *const all = huge();
    const uint32_t last = UINT32_MAX - 1;
    EQUAL(wq_k_pipe_init(&m.pipe, all, UINT32_MAX, UINT32_MAX), WQ_OK);
    numbers(UINT32_MAX, 0, OPEN);
    with_head(UINT32_MAX, last, UINT32_MAX - 4, OPEN);
    numbers(UINT32_MAX, UINT32_MAX - 4, OPEN);
    memcpy(all + last - 4, "<abcd", 5);
    memcpy(all, "efg>", 4);
    EQUAL(wq_k_pipe_write(&m.pipe, (const uint8_t *)"AB", 2), 2);
    CHECK(memcmp(all + last - 4, "ABbcd", 5) == 0);
    EQUAL(wq_k_pipe_read(&m.pipe, m.got, 3), 3);
    CHECK(memcmp(m.got, "def", 3) == 0);
    EQUAL(m.pipe.head[START], 2);
    EQUAL(m.pipe.head[USED], UINT32_MAX - 5);
}

static void of_every_pipe(int32_t (*call)(struct wq_pipe *), bool empties, uint32_t keeps, uint32_t sets)
{
    made(3);
    UP_TO(start, 2) UP_TO(used, 3) UP_TO(flags, ALL)
    {
        with_head(3, start, used, flags);
        numbers(3, used, flags);
        keep();
        EQUAL(call(&m.pipe), WQ_OK);
        if (empties) {
            word_becomes(&m.pipe.head[START], 0);
            word_becomes(&m.pipe.head[USED], 0);
        }
        word_becomes(&m.pipe.head[FLAGS], (flags & keeps) | sets);
        CHECK(stays());
    }
}

static void a_reset_empties_it(void) { of_every_pipe(wq_k_pipe_reset, true, ALL, RESET); }

static void a_close_keeps_the_bytes(void) { of_every_pipe(wq_k_pipe_close, false, 0, 0); }

static void a_reset_is_over(void) { of_every_pipe(wq_k_pipe_clear_reset, false, OPEN, 0); }

static void refused_by_all(void)
{
    for (uint64_t len = 0; len <= 9; len++) {
        REFUSED(wq_k_pipe_write(&m.pipe, m.src, len), WQ_EINVAL);
        REFUSED(wq_k_pipe_read(&m.pipe, m.got, len), WQ_EINVAL);
        REFUSED(wq_k_pipe_write_all(&m.pipe, m.src, len), WQ_EINVAL);
        REFUSED(wq_k_pipe_read_all(&m.pipe, m.got, len), WQ_EINVAL);
    }
    REFUSED(wq_k_pipe_reset(&m.pipe), WQ_EINVAL);
    REFUSED(wq_k_pipe_close(&m.pipe), WQ_EINVAL);
    REFUSED(wq_k_pipe_clear_reset(&m.pipe), WQ_EINVAL);
    REFUSED(wq_k_pipe_space_get(&m.pipe), WQ_EINVAL);
    REFUSED(wq_k_pipe_data_get(&m.pipe), WQ_EINVAL);
    REFUSED(wq_k_pipe_size(&m.pipe), WQ_EINVAL);
    REFUSED(wq_k_pipe_is_empty(&m.pipe), WQ_EINVAL);
    REFUSED(wq_k_pipe_is_full(&m.pipe), WQ_EINVAL);
    REFUSED(wq_k_pipe_is_open(&m.pipe), WQ_EINVAL);
    REFUSED(wq_k_pipe_is_resetting(&m.pipe), WQ_EINVAL);
}

static void malformed_pipes_are_refused(void)
{
    static const uint32_t no_flags[] = {4, 5, 6, 7, 1u << 31, UINT32_MAX};
    made(8);
    for (size_t i = 0; i < MALFORMED_RINGS; i++) {
        memcpy(m.pipe.head, malformed_rings[i].head, sizeof malformed_rings[i].head);
        m.pipe.buf_len = malformed_rings[i].len;
        for (m.pipe.head[FLAGS] = CLOSED; m.pipe.head[FLAGS] <= ALL; m.pipe.head[FLAGS]++)
            refused_by_all();
    }
    m.pipe.buf_len = ROOM;
    for (size_t i = 0; i < COUNT_OF(no_flags); i++) {
        with_head(8, 7, 4, no_flags[i]);
        refused_by_all();
        with_head(8, 0, 0, no_flags[i]);
        refused_by_all();
    }
}

/* ---- Decisions -------------------------------------------------------------------------------- */

enum { SMALL = 4 };

static void write_decisions(void)
{
    UP_TO(used, SMALL) UP_TO(size, SMALL) UP_TO(flags, ALL + 2) UP_TO(len, SMALL + 1) UP_TO(reader, 1)
    {
        const uint32_t space = size - used, moves = len < space ? len : space;
        int32_t code = reader ? WQ_WRITE_WAKE_READER : WQ_WRITE_OK;
        uint32_t actual = moves, new_used = reader && used == 0 ? 0 : used + moves;
        if (size == 0 || used > size || flags > ALL) {
            code = WQ_EINVAL;
        } else if (flags != OPEN || len == 0) {
            code = flags >= RESET ? WQ_ECANCELED : flags == CLOSED ? WQ_EPIPE : WQ_ENOMSG;
        } else if (used == size) {
            code = WQ_WRITE_PEND;
            actual = 0;
            new_used = used;
        }
        DECIDES(wq_pipe_write_decide(used, size, flags, len, reader, BOTH), code, actual, new_used);
    }
    const uint32_t most = UINT32_MAX;
    DECIDES(wq_pipe_write_decide(most - 3, most, OPEN, most, false, BOTH), WQ_WRITE_OK, 3, most);
    DECIDES(wq_pipe_write_decide(0, most, OPEN, most, false, BOTH), WQ_WRITE_OK, most, most);
    DECIDES(wq_pipe_write_decide(0, 8, OPEN, most, true, BOTH), WQ_WRITE_WAKE_READER, 8, 0);
    DECIDES(wq_pipe_write_decide(most, most, OPEN, 1, false, BOTH), WQ_WRITE_PEND, 0, most);
    DECIDES(wq_pipe_write_decide(0, 8, most, 1, false, BOTH), WQ_EINVAL, 0, 0);
    DECIDES(wq_pipe_write_decide(most, most - 1, OPEN, 1, false, BOTH), WQ_EINVAL, 0, 0);
}

static void read_decisions(void)
{
    UP_TO(used, SMALL) UP_TO(size, SMALL) UP_TO(flags, ALL + 2) UP_TO(len, SMALL + 1) UP_TO(writer, 1)
    {
        const uint32_t moves = len < used ? len : used;
        int32_t code = writer ? WQ_READ_WAKE_WRITER : WQ_READ_OK;
        if (size == 0 || used > size || flags > ALL)
            code = WQ_EINVAL;
        else if (flags >= RESET || len == 0)
            code = flags >= RESET ? WQ_ECANCELED : WQ_ENOMSG;
        else if (used == 0)
            code = flags == CLOSED ? WQ_EPIPE : WQ_READ_PEND;
        DECIDES(wq_pipe_read_decide(used, size, flags, len, writer, BOTH), code, moves, used - moves);
    }
    const uint32_t most = UINT32_MAX;
    DECIDES(wq_pipe_read_decide(most, most, CLOSED, most, true, BOTH), WQ_READ_WAKE_WRITER, most, 0);
    DECIDES(wq_pipe_read_decide(most - 1, most, OPEN, 1, false, BOTH), WQ_READ_OK, 1, most - 2);
    DECIDES(wq_pipe_read_decide(1, 8, most, 1, false, BOTH), WQ_EINVAL, 0, 0);
}

/* All or nothing: the ordinary decision where all bytes move or none can; else to wait, or never. */
static void decisions_on_all_or_nothing(void)
{
    UP_TO(used, SMALL) UP_TO(size, SMALL) UP_TO(flags, ALL + 2) UP_TO(len, SMALL + 1) UP_TO(waits, 1)
    {
        const int32_t late = len > size ? WQ_EINVAL : WQ_WRITE_PEND;
        int32_t code = wq_pipe_write_decide(used, size, flags, len, waits, BOTH);
        uint32_t actual = m.first, new_used = m.second;
        if (code == WQ_WRITE_PEND || (code >= 0 && actual < len)) {
            code = late;
            actual = 0;
            new_used = used;
        }
        DECIDES(wq_pipe_write_all_decide(used, size, flags, len, waits, BOTH), code, actual, new_used);
        code = wq_pipe_read_decide(used, size, flags, len, waits, BOTH);
        actual = m.first, new_used = m.second;
        if (code == WQ_READ_PEND || (code >= 0 && actual < len)) {
            code = flags == CLOSED ? WQ_EPIPE : late;
            actual = 0;
            new_used = used;
        }
        DECIDES(wq_pipe_read_all_decide(used, size, flags, len, waits, BOTH), code, actual, new_used);
    }
    const uint32_t most = UINT32_MAX;
    DECIDES(wq_pipe_write_all_decide(1, most, OPEN, most - 1, false, BOTH), WQ_WRITE_OK, most - 1, most);
    DECIDES(wq_pipe_write_all_decide(2, most, OPEN, most - 1, false, BOTH), WQ_WRITE_PEND, 0, 2);
    DECIDES(wq_pipe_read_all_decide(most, most, CLOSED, most, true, BOTH), WQ_READ_WAKE_WRITER, most, 0);
    DECIDES(wq_pipe_read_all_decide(most - 1, most, CLOSED, most, true, BOTH), WQ_EPIPE, 0, 0);
}

/* Where the pipe says that there is no room or no byte now, the decision is to wait. */
static int64_t decided(int64_t code) { return code == WQ_WRITE_PEND ? WQ_EAGAIN : code == 0 ? m.first : code; }

static void decide_functions_agree(void)
{
    made(3);
    UP_TO(used, 3) UP_TO(flags, ALL) UP_TO(len, 4)
    {
        int32_t code = wq_pipe_write_decide(used, 3, flags, len, false, BOTH);
        with_head(3, 2, used, flags);
        EQUAL(wq_k_pipe_write(&m.pipe, m.src, len), decided(code));
        if (code >= 0)
            EQUAL(wq_k_pipe_data_get(&m.pipe), m.second);
        code = wq_pipe_read_decide(used, 3, flags, len, false, BOTH);
        with_head(3, 2, used, flags);
        EQUAL(wq_k_pipe_read(&m.pipe, m.got, len), decided(code));
        if (code >= 0)
            EQUAL(wq_k_pipe_data_get(&m.pipe), m.second);
        code = wq_pipe_write_all_decide(used, 3, flags, len, false, BOTH);
        with_head(3, 2, used, flags);
        EQUAL(wq_k_pipe_write_all(&m.pipe, m.src, len), decided(code));
        if (code >= 0)
            EQUAL(wq_k_pipe_data_get(&m.pipe), m.second);
        code = wq_pipe_read_all_decide(used, 3, flags, len, false, BOTH);
        with_head(3, 2, used, flags);
        EQUAL(wq_k_pipe_read_all(&m.pipe, m.got, len), decided(code));
        if (code >= 0)
            EQUAL(wq_k_pipe_data_get(&m.pipe), m.second);
    }
}

/* A full pipe of 4, where two writers wait with a byte each. All is read; the first writes; its byte is read while the
 * second waits still; then that writes. What was put comes out in order. */
static void two_writers_at_a_full_pipe(void)
{
    made(4);
    EQUAL(wq_k_pipe_write(&m.pipe, (const uint8_t *)"gate", 4), 4);
    DECIDES(wq_pipe_write_decide(4, 4, OPEN, 1, false, BOTH), WQ_WRITE_PEND, 0, 4);

    DECIDES(wq_pipe_read_decide(4, 4, OPEN, 4, true, BOTH), WQ_READ_WAKE_WRITER, 4, 0);
    EQUAL(wq_k_pipe_read(&m.pipe, m.got, 4), 4);
    DECIDES(wq_pipe_write_decide(0, 4, OPEN, 1, false, BOTH), WQ_WRITE_OK, 1, 1);
    EQUAL(wq_k_pipe_write(&m.pipe, (const uint8_t *)"s", 1), 1);

    DECIDES(wq_pipe_read_decide(1, 4, OPEN, 1, true, BOTH), WQ_READ_WAKE_WRITER, 1, 0);
    EQUAL(wq_k_pipe_read(&m.pipe, m.got + 4, 1), 1);
    DECIDES(wq_pipe_write_decide(0, 4, OPEN, 1, false, BOTH), WQ_WRITE_OK, 1, 1);
    EQUAL(wq_k_pipe_write(&m.pipe, (const uint8_t *)"!", 1), 1);
    EQUAL(wq_k_pipe_read(&m.pipe, m.got + 5, 1), 1);
    CHECK(memcmp(m.got, "gates!", 6) == 0);
}

/* What is written while bytes are held goes behind them; the reader that waits is woken, and reads the held ones first. */
static void a_reader_that_waits_while_bytes_are_held(void)
{
    made(4);
    EQUAL(wq_k_pipe_write(&m.pipe, (const uint8_t *)"a", 1), 1);
    DECIDES(wq_pipe_write_decide(1, 4, OPEN, 2, true, BOTH), WQ_WRITE_WAKE_READER, 2, 3);
    EQUAL(wq_k_pipe_write(&m.pipe, (const uint8_t *)"bc", 2), 2);
    EQUAL(wq_k_pipe_read(&m.pipe, m.got, 2), 2);
    CHECK(memcmp(m.got, "ab", 2) == 0);
    DECIDES(wq_pipe_write_decide(4, 4, OPEN, 2, true, BOTH), WQ_WRITE_PEND, 0, 4);
}

/* Resetting comes first, then closed, then who waits. */
static void flags_come_before_who_waits(void)
{
    UP_TO(used, SMALL) UP_TO(waits, 1)
    {
        for (uint32_t flags = RESET; flags <= ALL; flags++) {
            DECIDES(wq_pipe_write_decide(used, SMALL, flags, 1, waits, BOTH), WQ_ECANCELED, 0, 0);
            DECIDES(wq_pipe_read_decide(used, SMALL, flags, 1, waits, BOTH), WQ_ECANCELED, 0, 0);
        }
        DECIDES(wq_pipe_write_decide(used, SMALL, CLOSED, 1, waits, BOTH), WQ_EPIPE, 0, 0);
        DECIDES(wq_pipe_read_decide(0, SMALL, CLOSED, 1, waits, BOTH), WQ_EPIPE, 0, 0);
    }
    DECIDES(wq_pipe_read_decide(2, SMALL, CLOSED, 1, true, BOTH), WQ_READ_WAKE_WRITER, 1, 1);
    DECIDES(wq_pipe_write_decide(SMALL + 1, SMALL, RESET, 1, true, BOTH), WQ_EINVAL, 0, 0);
}

static const struct test tests[] = {
    TEST(the_log_of_a_barn),
    TEST(a_new_pipe_is_open_and_empty),
    TEST(a_size_of_0_or_above_the_buffer_is_refused),
    TEST(any_bytes_into_and_out_of_any_small_pipe),
    TEST(all_or_nothing_in_any_small_pipe),
    TEST(frames_of_a_camera),
    TEST(what_goes_in_comes_out_in_that_order),
    TEST(lengths_beyond_32_bits),
    TEST(the_greatest_pipe),
    TEST(a_reset_empties_it),
    TEST(a_close_keeps_the_bytes),
    TEST(a_reset_is_over),
    TEST(malformed_pipes_are_refused),
    TEST(write_decisions),
    TEST(read_decisions),
    TEST(decisions_on_all_or_nothing),
    TEST(decide_functions_agree),
    TEST(two_writers_at_a_full_pipe),
    TEST(a_reader_that_waits_while_bytes_are_held),
    TEST(flags_come_before_who_waits),
};

const struct group pipe_group = GROUP("pipe", tests);
