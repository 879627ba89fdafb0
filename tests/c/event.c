/* The event flags.
 *
 * SPDX-License-Identifier: Apache-2.0
 */
#include "check.h"

static void with_flags(uint32_t flags) { m.event.head[0] = flags; }

/* The answer, and the flags after it; nothing else changes. */
#define LEAVES(call, answer, flags)            \
    do {                                       \
        keep();                                \
        EQUAL(call, answer);                   \
        word_becomes(&m.event.head[0], flags); \
        CHECK(stays());                        \
    } while (0)

/* Eight bits over a word: at its ends, and where its bytes meet. */
static uint32_t spread(uint32_t bits)
{
    static const unsigned places[] = {0, 1, 7, 8, 15, 16, 30, 31};
    uint32_t word = 0;
    for (size_t i = 0; i < COUNT_OF(places); i++)
        word |= (bits >> i & 1) << places[i];
    return word;
}

/* Bit for bit: the new one where the mask is set, else the old one. */
static uint32_t masked(uint32_t old_flags, uint32_t new_flags, uint32_t mask)
{
    uint32_t flags = 0;
    for (unsigned i = 0; i < 32; i++)
        flags |= ((mask >> i & 1 ? new_flags : old_flags) >> i & 1) << i;
    return flags;
}

/* ---- Flags ------------------------------------------------------------------------------------ */

static void milking_starts_when_all_is_ready(void)
{
    enum { GATE_SHUT = 1, COW_IN = 2, CUPS_ON = 4, ALL = 7 };
    EQUAL(wq_k_event_init(&m.event), WQ_OK);
    EQUAL(wq_k_event_wait_check_any(&m.event, ALL), 0);
    EQUAL(wq_k_event_post(&m.event, COW_IN), COW_IN);
    EQUAL(wq_k_event_post(&m.event, GATE_SHUT), COW_IN | GATE_SHUT);
    EQUAL(wq_k_event_wait_check_any(&m.event, ALL), 1);
    EQUAL(wq_k_event_wait_check_all(&m.event, ALL), 0);
    EQUAL(wq_k_event_post(&m.event, CUPS_ON), ALL);
    EQUAL(wq_k_event_wait_check_all(&m.event, ALL), 1);
    EQUAL(wq_k_event_clear(&m.event, CUPS_ON), COW_IN | GATE_SHUT);
    EQUAL(wq_k_event_set_masked(&m.event, CUPS_ON, GATE_SHUT | CUPS_ON), COW_IN | GATE_SHUT);
    EQUAL(wq_k_event_events_get(&m.event), COW_IN | CUPS_ON);
    EQUAL(wq_k_event_set(&m.event, 0), COW_IN | CUPS_ON);
    EQUAL(wq_k_event_events_get(&m.event), 0);
}

static void a_new_event_has_no_flag(void)
{
    for (size_t i = 0; i < EDGES; i++) {
        with_flags(edges[i]);
        LEAVES(wq_k_event_init(&m.event), WQ_OK, 0);
    }
}

static void every_pair_of_flags(void)
{
    UP_TO(a, 255) UP_TO(b, 255)
    {
        const uint32_t flags = spread(a), other = spread(b);
        with_flags(flags);
        keep();
        EQUAL(wq_k_event_wait_check_any(&m.event, other), (a & b) != 0);
        EQUAL(wq_k_event_wait_check_all(&m.event, other), (a & b) == b);
        EQUAL(wq_k_event_events_get(&m.event), flags);
        EQUAL(m.event.head[0], flags);
        EQUAL(wq_k_event_post(&m.event, other), spread(a | b));
        EQUAL(m.event.head[0], spread(a | b));
        EQUAL(wq_k_event_clear(&m.event, other), spread(a & ~b));
        EQUAL(m.event.head[0], spread(a & ~b));
        EQUAL(wq_k_event_set(&m.event, other), spread(a & ~b));
        word_becomes(&m.event.head[0], other);
        CHECK(stays());
    }
}

static void every_masked_set(void)
{
    UP_TO(a, 31) UP_TO(b, 31) UP_TO(c, 31)
    {
        const uint32_t flags = spread(a << 3), new_flags = spread(b << 3), mask = spread(c << 3);
        with_flags(flags);
        LEAVES(wq_k_event_set_masked(&m.event, new_flags, mask), flags, spread((a & ~c) << 3 | (b & c) << 3));
    }
}

static void words_at_the_edges(void)
{
    for (size_t i = 0; i < EDGES; i++)
        for (size_t j = 0; j < EDGES; j++) {
            const uint32_t flags = edges[i], other = edges[j];
            with_flags(flags);
            LEAVES(wq_k_event_wait_check_any(&m.event, other), (flags & other) != 0, flags);
            LEAVES(wq_k_event_wait_check_all(&m.event, other), (flags | other) == flags, flags);
            LEAVES(wq_k_event_events_get(&m.event), flags, flags);
            LEAVES(wq_k_event_set(&m.event, other), flags, other);
            LEAVES(wq_k_event_post(&m.event, flags), flags | other, flags | other);
            LEAVES(wq_k_event_clear(&m.event, other), flags & ~other, flags & ~other);
            for (size_t k = 0; k < EDGES; k++) {
                with_flags(flags);
                LEAVES(wq_k_event_set_masked(&m.event, other, edges[k]), flags, masked(flags, other, edges[k]));
            }
        }
}

/* ---- Against 32 flags, each for itself -------------------------------------------------------- */

static uint32_t word_of(const bool *flag)
{
    uint32_t word = 0;
    for (unsigned i = 0; i < 32; i++)
        word |= (uint32_t)flag[i] << i;
    return word;
}

static void put_flags(bool *flag, uint32_t flags, uint32_t mask)
{
    for (unsigned i = 0; i < 32; i++)
        if (mask >> i & 1)
            flag[i] = flags >> i & 1;
}

static bool wait_matches(const bool *flag, uint32_t desired, uint32_t wait_type)
{
    bool any = false, all = true;
    for (unsigned i = 0; i < 32; i++)
        if (desired >> i & 1) {
            any = any || flag[i];
            all = all && flag[i];
        }
    return wait_type == WQ_WAIT_ALL ? all : any;
}

/* Few bits, many bits, or any. */
static uint32_t random_flags(void)
{
    const uint32_t a = (uint32_t)random_word(), b = (uint32_t)random_word();
    const uint32_t flags[] = {a, a & b, a | b, 1u << random_below(32), edges[random_below(EDGES)]};
    return flags[random_below(COUNT_OF(flags))];
}

static void a_long_run(void)
{
    bool flag[32] = {false};
    EQUAL(wq_k_event_init(&m.event), WQ_OK);
    for (int i = 0; i < 10000; i++) {
        const uint32_t flags = random_flags(), mask = random_flags(), before = word_of(flag);
        EQUAL(wq_k_event_wait_check_any(&m.event, flags), wait_matches(flag, flags, WQ_WAIT_ANY));
        EQUAL(wq_k_event_wait_check_all(&m.event, flags), wait_matches(flag, flags, WQ_WAIT_ALL));
        switch (random_below(4)) {
        case 0:
            put_flags(flag, UINT32_MAX, flags);
            LEAVES(wq_k_event_post(&m.event, flags), word_of(flag), word_of(flag));
            break;
        case 1:
            put_flags(flag, flags, UINT32_MAX);
            LEAVES(wq_k_event_set(&m.event, flags), before, flags);
            break;
        case 2:
            put_flags(flag, flags, mask);
            LEAVES(wq_k_event_set_masked(&m.event, flags, mask), before, word_of(flag));
            break;
        default:
            put_flags(flag, 0, flags);
            LEAVES(wq_k_event_clear(&m.event, flags), word_of(flag), word_of(flag));
        }
        EQUAL(wq_k_event_events_get(&m.event), word_of(flag));
    }
}

/* ---- Decisions -------------------------------------------------------------------------------- */

static void wait_decides(uint32_t flags, uint32_t desired, uint32_t type, bool no_wait, int32_t code, uint32_t matched)
{
    DECIDES_ONE(wq_event_wait_decide(flags, desired, type, no_wait, &m.first), code, matched);
}

static void wait_decides_by(bool matches, uint32_t flags, uint32_t desired, uint32_t type)
{
    if (matches) {
        wait_decides(flags, desired, type, true, WQ_EVENT_WAIT_MATCHED, flags & desired);
        wait_decides(flags, desired, type, false, WQ_EVENT_WAIT_MATCHED, flags & desired);
    } else {
        wait_decides(flags, desired, type, true, WQ_EBUSY, 0);
        wait_decides(flags, desired, type, false, WQ_EVENT_WAIT_PEND, 0);
    }
}

static void wait_decisions(void)
{
    EQUAL(WQ_EVENT_WAIT_PEND, WQ_WAITS);
    UP_TO(a, 63) UP_TO(b, 63)
    {
        wait_decides_by((a & b) != 0, spread(a << 2), spread(b << 2), WQ_WAIT_ANY);
        wait_decides_by((a & b) == b, spread(a << 2), spread(b << 2), WQ_WAIT_ALL);
    }
    for (size_t i = 0; i < EDGES; i++)
        for (size_t j = 0; j < EDGES; j++) {
            wait_decides_by((edges[i] & edges[j]) != 0, edges[i], edges[j], WQ_WAIT_ANY);
            wait_decides_by((edges[i] | edges[j]) == edges[i], edges[i], edges[j], WQ_WAIT_ALL);
        }
}

/* Before it is asked whether the flags are there, and whether the caller would wait. */
static void a_wait_type_above_1_is_refused(void)
{
    static const uint32_t types[] = {2, 3, 255, 256, 257, 1u << 31, (1u << 31) + 1, UINT32_MAX - 1, UINT32_MAX};
    for (size_t i = 0; i < COUNT_OF(types); i++)
        UP_TO(flags, 2) UP_TO(desired, 2) UP_TO(no_wait, 1)
            wait_decides(flags, desired, types[i], no_wait, WQ_EINVAL, 0);
}

static void nothing_is_desired(void)
{
    for (size_t i = 0; i < EDGES; i++) {
        wait_decides_by(false, edges[i], 0, WQ_WAIT_ANY);
        wait_decides_by(true, edges[i], 0, WQ_WAIT_ALL);
    }
}

static void post_decisions(void)
{
    for (size_t i = 0; i < EDGES; i++)
        for (size_t j = 0; j < EDGES; j++)
            for (size_t k = 0; k < EDGES; k++)
                EQUAL(wq_event_post_decide(edges[i], edges[j], edges[k]), masked(edges[i], edges[j], edges[k]));
    UP_TO(a, 31) UP_TO(b, 31) UP_TO(c, 31)
        EQUAL(wq_event_post_decide(spread(a), spread(b), spread(c)), spread((a & ~c) | (b & c)));
}

/* A post is a set of the flags that it brings, a clear one of flags that are gone. */
static void decide_functions_agree(void)
{
    for (int i = 0; i < 500; i++) {
        const uint32_t flags = random_flags(), other = random_flags(), mask = random_flags();
        with_flags(flags);
        EQUAL(wq_event_wait_decide(flags, other, WQ_WAIT_ANY, false, &m.first),
              wq_k_event_wait_check_any(&m.event, other) ? WQ_EVENT_WAIT_MATCHED : WQ_EVENT_WAIT_PEND);
        EQUAL(wq_event_wait_decide(flags, other, WQ_WAIT_ALL, false, &m.first),
              wq_k_event_wait_check_all(&m.event, other) ? WQ_EVENT_WAIT_MATCHED : WQ_EVENT_WAIT_PEND);
        EQUAL(wq_k_event_post(&m.event, other), wq_event_post_decide(flags, other, other));
        with_flags(flags);
        EQUAL(wq_k_event_clear(&m.event, other), wq_event_post_decide(flags, 0, other));
        with_flags(flags);
        wq_k_event_set_masked(&m.event, other, mask);
        EQUAL(wq_k_event_events_get(&m.event), wq_event_post_decide(flags, other, mask));
        wq_k_event_set(&m.event, other);
        EQUAL(wq_k_event_events_get(&m.event), wq_event_post_decide(flags, other, UINT32_MAX));
    }
}

static const struct test tests[] = {
    TEST(milking_starts_when_all_is_ready),
    TEST(a_new_event_has_no_flag),
    TEST(every_pair_of_flags),
    TEST(every_masked_set),
    TEST(words_at_the_edges),
    TEST(a_long_run),
    TEST(wait_decisions),
    TEST(a_wait_type_above_1_is_refused),
    TEST(nothing_is_desired),
    TEST(post_decisions),
    TEST(decide_functions_agree),
};

const struct group event_group = GROUP("event", tests);
