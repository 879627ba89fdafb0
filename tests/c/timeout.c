/* The timeout.
 *
 * SPDX-License-Identifier: Apache-2.0
 */
#include "check.h"

enum { DEADLINE, ACTIVE, NOW };

#define NEVER WQ_K_FOREVER_TICKS

/* Small numbers, those about 2^32 and 2^63, and the largest. */
static const uint64_t times[] = {
    0, 1, 2, 1ull << 31, UINT32_MAX, 1ull << 32, INT64_MAX, 1ull << 63, NEVER - 2, NEVER - 1, NEVER,
};
static const uint64_t actives[] = {0, 1, 2, 1ull << 32, 1ull << 63, UINT64_MAX};

static uint64_t *const head = m.timeout.head;

static void with_head(uint64_t deadline, uint64_t active, uint64_t now)
{
    head[DEADLINE] = deadline;
    head[ACTIVE] = active;
    head[NOW] = now;
}

static void made(uint64_t now) { EQUAL(wq_k_timeout_init(&m.timeout, now), WQ_OK); }

/* ---- One call on any object, and every byte of the memory after it ---------------------------- */

static bool malformed(void)
{
    const bool behind = head[DEADLINE] < head[NOW] && head[DEADLINE] != WQ_K_NO_WAIT_TICKS;
    return head[NOW] == NEVER || (head[ACTIVE] != 0 && behind);
}

/* Whether there is a time so many ticks after that one. */
static bool is_time(uint64_t from, uint64_t ticks) { return from + ticks >= from && from + ticks != NEVER; }

static void init(uint64_t now)
{
    keep();
    EQUAL(wq_k_timeout_init(&m.timeout, now), now == NEVER ? WQ_EINVAL : WQ_OK);
    if (now != NEVER) {
        long_becomes(&head[DEADLINE], 0);
        long_becomes(&head[ACTIVE], 0);
        long_becomes(&head[NOW], now);
    }
    CHECK(stays());
}

/* What an add answers to this deadline. */
static int32_t add_code(bool is_fine)
{
    if (malformed())
        return WQ_EINVAL;
    if (head[ACTIVE] != 0)
        return WQ_EBUSY;
    return is_fine ? WQ_OK : WQ_EINVAL;
}

static void added(int32_t code, uint64_t deadline)
{
    if (code == WQ_OK) {
        long_becomes(&head[DEADLINE], deadline);
        long_becomes(&head[ACTIVE], 1);
    }
    CHECK(stays());
}

static void add(uint64_t duration)
{
    const int32_t code = add_code(is_time(head[NOW], duration));
    const uint64_t deadline = head[NOW] + duration;
    keep();
    EQUAL(wq_k_timeout_add(&m.timeout, duration, &m.data), code);
    if (code == WQ_OK)
        long_becomes(&m.data, deadline);
    added(code, deadline);
}

static void add_absolute(uint64_t deadline)
{
    const int32_t code = add_code(deadline >= head[NOW] && deadline != NEVER);
    keep();
    EQUAL(wq_k_timeout_add_absolute(&m.timeout, deadline), code);
    added(code, deadline);
}

static void add_forever(void)
{
    const int32_t code = add_code(true);
    keep();
    EQUAL(wq_k_timeout_add_forever(&m.timeout), code);
    added(code, NEVER);
}

static void add_no_wait(void)
{
    const int32_t code = add_code(true);
    keep();
    EQUAL(wq_k_timeout_add_no_wait(&m.timeout), code);
    added(code, 0);
}

static void stop(void)
{
    const int32_t code = malformed() || head[ACTIVE] == 0 ? WQ_EINVAL : WQ_OK;
    keep();
    EQUAL(wq_k_timeout_abort(&m.timeout), code);
    if (code == WQ_OK)
        long_becomes(&head[ACTIVE], 0);
    CHECK(stays());
}

static void announce(uint64_t ticks)
{
    const uint64_t then = head[NOW] + ticks;
    const bool fires = head[ACTIVE] != 0 && head[DEADLINE] != NEVER && head[DEADLINE] <= then;
    const int32_t code = malformed() || !is_time(head[NOW], ticks) ? WQ_EINVAL : fires;
    keep();
    EQUAL(wq_k_timeout_announce(&m.timeout, ticks), code);
    if (code >= 0)
        long_becomes(&head[NOW], then);
    if (code == 1)
        long_becomes(&head[ACTIVE], 0);
    CHECK(stays());
}

/* A call that only reads: this number, if it refuses nothing. */
#define READS(call, refused, number)                \
    do {                                            \
        keep();                                     \
        EQUAL(call, (refused) ? WQ_EINVAL : WQ_OK); \
        if (!(refused))                             \
            long_becomes(&m.data, number);          \
        CHECK(stays());                             \
    } while (0)

static void looks(void)
{
    const uint64_t deadline = head[DEADLINE], now = head[NOW], later = deadline > now ? deadline - now : 0;
    const bool bad = malformed(), active = head[ACTIVE] != 0;
    READS(wq_k_timeout_remaining(&m.timeout, &m.data), bad, !active ? 0 : deadline == NEVER ? NEVER : later);
    READS(wq_k_timeout_expires(&m.timeout, &m.data), bad, active ? deadline : now);
    READS(wq_k_timeout_now(&m.timeout, &m.data), bad, now);
    keep();
    EQUAL(wq_k_timeout_is_active(&m.timeout), bad ? WQ_EINVAL : active);
    EQUAL(wq_k_timeout_is_forever(&m.timeout), bad ? WQ_EINVAL : deadline == NEVER);
    EQUAL(wq_k_timeout_is_no_wait(&m.timeout), bad ? WQ_EINVAL : deadline == 0);
    CHECK(stays());
}

static void looks_from(uint64_t number)
{
    const uint64_t now = head[NOW], later = number > now ? number - now : 0;
    const bool bad = malformed();
    READS(wq_k_timeout_timepoint_calc(&m.timeout, number, &m.data), bad || !is_time(now, number), now + number);
    READS(wq_k_timeout_timepoint_timeout(&m.timeout, number, &m.data), bad, number == NEVER ? NEVER : later);
}

/* Each call on these three words. */
static void each_call(uint64_t deadline, uint64_t active, uint64_t now, const uint64_t *numbers, size_t count)
{
    static void (*const calls[])(void) = {add_forever, add_no_wait, stop, looks};
    static void (*const calls_of[])(uint64_t) = {init, add, add_absolute, announce, looks_from};
    for (size_t i = 0; i < COUNT_OF(calls); i++) {
        with_head(deadline, active, now);
        calls[i]();
    }
    for (size_t i = 0; i < COUNT_OF(calls_of); i++)
        for (size_t j = 0; j < count; j++) {
            with_head(deadline, active, now);
            calls_of[i](numbers[j]);
        }
}

/* ---- Tests ------------------------------------------------------------------------------------ */

/* A cow has 300 seconds to come to the stall, from second 1000 on. */
static void a_cow_is_called(void)
{
    made(1000);
    EQUAL(wq_k_timeout_add(&m.timeout, 300, &m.data), WQ_OK);
    CHECK(m.data == 1300);
    EQUAL(wq_k_timeout_announce(&m.timeout, 299), 0);
    EQUAL(wq_k_timeout_remaining(&m.timeout, &m.data), WQ_OK);
    CHECK(m.data == 1);
    EQUAL(wq_k_timeout_announce(&m.timeout, 1), 1);
    EQUAL(wq_k_timeout_is_active(&m.timeout), 0);
    EQUAL(wq_k_timeout_announce(&m.timeout, 1), 0);
    EQUAL(wq_k_timeout_add_absolute(&m.timeout, 1300), WQ_EINVAL);
    EQUAL(wq_k_timeout_add_absolute(&m.timeout, 1301), WQ_OK);
    EQUAL(wq_k_timeout_add_forever(&m.timeout), WQ_EBUSY);
    EQUAL(wq_k_timeout_abort(&m.timeout), WQ_OK);
    EQUAL(wq_k_timeout_abort(&m.timeout), WQ_EINVAL);
    EQUAL(wq_k_timeout_announce(&m.timeout, 100), 0);
    EQUAL(wq_k_timeout_now(&m.timeout, &m.data), WQ_OK);
    CHECK(m.data == 1401);
}

static void a_new_timeout_is_not_active(void)
{
    for (size_t i = 0; i < COUNT_OF(times); i++) {
        with_head(7, 1, 5);
        init(times[i]);
        looks();
    }
}

static void every_call_on_small_numbers(void)
{
    static const uint64_t small[] = {0, 1, 2, 3, 4, 5};
    UP_TO(deadline, 4) UP_TO(active, 2) UP_TO(now, 4) each_call(deadline, active, now, small, COUNT_OF(small));
}

static void every_call_at_the_edges(void)
{
    for (size_t i = 0; i < COUNT_OF(times); i++)
        for (size_t j = 0; j < COUNT_OF(actives); j++)
            for (size_t k = 0; k < COUNT_OF(times); k++)
                each_call(times[i], actives[j], times[k], times, COUNT_OF(times));
}

/* The last tick that there is is 2^64 - 2. */
static void up_to_the_last_tick(void)
{
    for (uint64_t left = 1; left <= 4; left++) {
        const uint64_t now = NEVER - left;
        const uint64_t about[] = {0, 1, left - 1, left, left + 1, now - 1, now, now + 1, NEVER - 1, NEVER};
        each_call(0, 0, now, about, COUNT_OF(about));
        each_call(NEVER - 1, 1, now, about, COUNT_OF(about));
        made(now);
        REFUSED(wq_k_timeout_add(&m.timeout, left, &m.data), WQ_EINVAL);
        add(left - 1);
        CHECK(head[DEADLINE] == NEVER - 1);
        REFUSED(wq_k_timeout_announce(&m.timeout, left), WQ_EINVAL);
        EQUAL(wq_k_timeout_announce(&m.timeout, left - 1), 1);
        CHECK(head[NOW] == NEVER - 1);
        REFUSED(wq_k_timeout_announce(&m.timeout, 1), WQ_EINVAL);
        EQUAL(wq_k_timeout_announce(&m.timeout, 0), 0);
    }
}

static void never_and_at_once(void)
{
    for (size_t i = 0; i < COUNT_OF(times) - 1; i++) {
        made(times[i]);
        add_forever();
        EQUAL(wq_k_timeout_is_forever(&m.timeout), 1);
        announce(NEVER - 1 - times[i]);
        EQUAL(wq_k_timeout_is_active(&m.timeout), 1);
        looks();
        stop();
        EQUAL(wq_k_timeout_is_forever(&m.timeout), 1);
        made(times[i]);
        add_no_wait();
        EQUAL(wq_k_timeout_is_no_wait(&m.timeout), 1);
        looks();
        EQUAL(wq_k_timeout_announce(&m.timeout, 0), 1);
        EQUAL(wq_k_timeout_is_no_wait(&m.timeout), 1);
    }
}

/* Each clause alone, at its edge and far beyond it. */
static void malformed_timeouts_are_refused(void)
{
    static const uint64_t bad[][3] = {
        {0, 0, NEVER},       {0, 1, NEVER},       {NEVER, 1, NEVER},           {NEVER - 1, 0, NEVER},
        {1, 1, 2},           {4, 1, 5},           {4, 2, 5},                   {4, 1ull << 32, 5},
        {4, UINT64_MAX, 5},  {1, 1, NEVER - 1},   {NEVER - 2, 1, NEVER - 1},   {UINT32_MAX, 1, 1ull << 32},
        {INT64_MAX, 1, 1ull << 63},
    };
    for (size_t i = 0; i < COUNT_OF(bad); i++) {
        with_head(bad[i][DEADLINE], bad[i][ACTIVE], bad[i][NOW]);
        for (size_t j = 0; j < COUNT_OF(times); j++) {
            REFUSED(wq_k_timeout_add(&m.timeout, times[j], &m.data), WQ_EINVAL);
            REFUSED(wq_k_timeout_add_absolute(&m.timeout, times[j]), WQ_EINVAL);
            REFUSED(wq_k_timeout_announce(&m.timeout, times[j]), WQ_EINVAL);
            REFUSED(wq_k_timeout_timepoint_calc(&m.timeout, times[j], &m.data), WQ_EINVAL);
            REFUSED(wq_k_timeout_timepoint_timeout(&m.timeout, times[j], &m.data), WQ_EINVAL);
        }
        REFUSED(wq_k_timeout_add_forever(&m.timeout), WQ_EINVAL);
        REFUSED(wq_k_timeout_add_no_wait(&m.timeout), WQ_EINVAL);
        REFUSED(wq_k_timeout_abort(&m.timeout), WQ_EINVAL);
        REFUSED(wq_k_timeout_remaining(&m.timeout, &m.data), WQ_EINVAL);
        REFUSED(wq_k_timeout_expires(&m.timeout, &m.data), WQ_EINVAL);
        REFUSED(wq_k_timeout_now(&m.timeout, &m.data), WQ_EINVAL);
        REFUSED(wq_k_timeout_is_active(&m.timeout), WQ_EINVAL);
        REFUSED(wq_k_timeout_is_forever(&m.timeout), WQ_EINVAL);
        REFUSED(wq_k_timeout_is_no_wait(&m.timeout), WQ_EINVAL);
        made(5);
    }
}

static void an_active_one_is_busy_before_the_number_is_asked(void)
{
    made(5);
    add(3);
    for (size_t i = 0; i < COUNT_OF(times); i++) {
        REFUSED(wq_k_timeout_add(&m.timeout, times[i], &m.data), WQ_EBUSY);
        REFUSED(wq_k_timeout_add_absolute(&m.timeout, times[i]), WQ_EBUSY);
    }
    REFUSED(wq_k_timeout_add_forever(&m.timeout), WQ_EBUSY);
    REFUSED(wq_k_timeout_add_no_wait(&m.timeout), WQ_EBUSY);
}

static void a_duration_comes_back(void)
{
    for (size_t i = 0; i < COUNT_OF(times) - 1; i++)
        for (size_t j = 0; j < COUNT_OF(times); j++) {
            made(times[i]);
            if (wq_k_timeout_timepoint_calc(&m.timeout, times[j], &m.data) < 0)
                continue;
            READS(wq_k_timeout_timepoint_timeout(&m.timeout, m.data, &m.data), false, times[j]);
            add(times[j]);
            READS(wq_k_timeout_remaining(&m.timeout, &m.data), false, times[j]);
        }
}

/* ---- Against a count of what is left ---------------------------------------------------------- */

static struct {
    bool active, forever;
    uint64_t left;
} counted;

/* An add answered this. */
static void counted_from(int32_t code, bool forever, uint64_t left)
{
    EQUAL(code, counted.active ? WQ_EBUSY : WQ_OK);
    if (counted.active)
        return;
    counted.active = true;
    counted.forever = forever;
    counted.left = left;
}

static int32_t counted_down(uint64_t ticks)
{
    if (!counted.active || counted.forever)
        return 0;
    if (counted.left <= ticks) {
        counted.active = false;
        return 1;
    }
    counted.left -= ticks;
    return 0;
}

static void a_step(void)
{
    const uint64_t few = random_below(8);
    switch (random_below(12)) {
    case 0:
    case 1:
        counted_from(wq_k_timeout_add(&m.timeout, few, &m.data), false, few);
        break;
    case 2:
    case 3:
        counted_from(wq_k_timeout_add_absolute(&m.timeout, head[NOW] + few), false, few);
        break;
    case 4:
        counted_from(wq_k_timeout_add_no_wait(&m.timeout), false, 0);
        break;
    case 5:
        counted_from(wq_k_timeout_add_forever(&m.timeout), true, 0);
        break;
    case 6:
        EQUAL(wq_k_timeout_abort(&m.timeout), counted.active ? WQ_OK : WQ_EINVAL);
        counted.active = false;
        break;
    default:
        EQUAL(wq_k_timeout_announce(&m.timeout, few), counted_down(few));
    }
}

static void a_long_run(void)
{
    static const uint64_t starts[] = {0, 1, UINT32_MAX - 1000, (1ull << 63) - 1000, NEVER - 100000};
    for (size_t i = 0; i < COUNT_OF(starts); i++) {
        made(starts[i]);
        counted.active = false;
        for (int j = 0; j < 5000; j++) {
            a_step();
            EQUAL(wq_k_timeout_is_active(&m.timeout), counted.active);
            READS(wq_k_timeout_remaining(&m.timeout, &m.data), false,
                  !counted.active ? 0 : counted.forever ? NEVER : counted.left);
        }
    }
}

static void any_numbers(void)
{
    for (int i = 0; i < 2000; i++) {
        const uint64_t now = random_word() >> random_below(64), about = now + random_below(5) - 1, any = random_word();
        const uint64_t numbers[] = {any, any >> random_below(64), about, NEVER - now, NEVER - now - 1};
        each_call(random_below(2) ? any : about, random_below(3), now, numbers, COUNT_OF(numbers));
    }
}

/* ---- Decisions -------------------------------------------------------------------------------- */

/* The answer, and the number that the call writes to m.data: none if it refuses. */
#define DECIDES_LONG(call, code, number)   \
    do {                                   \
        m.data = UNWRITTEN;                \
        keep();                            \
        EQUAL(call, code);                 \
        if ((code) >= 0)                   \
            long_becomes(&m.data, number); \
        CHECK(stays());                    \
    } while (0)

static void add_decides(uint64_t now, uint64_t duration)
{
    const bool fine = now != NEVER && is_time(now, duration);
    DECIDES_LONG(wq_timeout_add_decide(now, duration, &m.data), fine ? WQ_OK : WQ_EINVAL, now + duration);
}

/* As the object of these numbers announces. */
static void announce_decides(uint64_t now, uint64_t ticks, uint64_t deadline, bool active)
{
    with_head(deadline, active, now);
    const int32_t code = wq_k_timeout_announce(&m.timeout, ticks);
    DECIDES_LONG(wq_timeout_announce_decide(now, ticks, deadline, active, &m.data), code, head[NOW]);
}

static void decisions_at_the_edges(void)
{
    CHECK(wq_timeout_abort_decide(true) && !wq_timeout_abort_decide(false));
    for (size_t i = 0; i < COUNT_OF(times); i++)
        for (size_t j = 0; j < COUNT_OF(times); j++) {
            add_decides(times[i], times[j]);
            for (size_t k = 0; k < COUNT_OF(times); k++)
                UP_TO(active, 1) announce_decides(times[i], times[j], times[k], active);
        }
}

static void decisions_on_small_numbers(void)
{
    UP_TO(now, 4) UP_TO(number, 4)
    {
        add_decides(now, number);
        add_decides(NEVER - now, number);
        UP_TO(deadline, 8) UP_TO(active, 1)
        {
            announce_decides(now, number, deadline, active);
            announce_decides(NEVER - 4 + now, number, NEVER - deadline, active);
        }
    }
}

static void announce_decisions(void)
{
    DECIDES_LONG(wq_timeout_announce_decide(5, 2, 8, true, &m.data), 0, 7);
    DECIDES_LONG(wq_timeout_announce_decide(5, 3, 8, true, &m.data), 1, 8);
    DECIDES_LONG(wq_timeout_announce_decide(5, 3, 8, false, &m.data), 0, 8);
    DECIDES_LONG(wq_timeout_announce_decide(5, 0, 5, true, &m.data), 1, 5);
    DECIDES_LONG(wq_timeout_announce_decide(5, 0, 0, true, &m.data), 1, 5);
    DECIDES_LONG(wq_timeout_announce_decide(5, 3, 4, true, &m.data), WQ_EINVAL, 0);
    DECIDES_LONG(wq_timeout_announce_decide(5, 3, 4, false, &m.data), 0, 8);
    DECIDES_LONG(wq_timeout_announce_decide(5, NEVER - 6, NEVER, true, &m.data), 0, NEVER - 1);
    DECIDES_LONG(wq_timeout_announce_decide(5, NEVER - 5, NEVER, true, &m.data), WQ_EINVAL, 0);
    DECIDES_LONG(wq_timeout_announce_decide(NEVER, 0, NEVER, true, &m.data), WQ_EINVAL, 0);
    DECIDES_LONG(wq_timeout_announce_decide(NEVER - 1, 0, NEVER - 1, true, &m.data), 1, NEVER - 1);
}

static const struct test tests[] = {
    TEST(a_cow_is_called),
    TEST(a_new_timeout_is_not_active),
    TEST(every_call_on_small_numbers),
    TEST(every_call_at_the_edges),
    TEST(up_to_the_last_tick),
    TEST(never_and_at_once),
    TEST(malformed_timeouts_are_refused),
    TEST(an_active_one_is_busy_before_the_number_is_asked),
    TEST(a_duration_comes_back),
    TEST(a_long_run),
    TEST(any_numbers),
    TEST(announce_decisions),
    TEST(decisions_at_the_edges),
    TEST(decisions_on_small_numbers),
};

const struct group timeout_group = GROUP("timeout", tests);
