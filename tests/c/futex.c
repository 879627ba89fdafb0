/* The futex.
 *
 * SPDX-License-Identifier: Apache-2.0
 */
#include "check.h"

enum { VAL, LEN };

#define QUEUE(...) CHECK(queue_is(m.futex.entry, m.futex.head[LEN], IDS(__VA_ARGS__)))

static const uint32_t values[] = {0, 1, 7, WQ_MAX_WAITERS, 1u << 31, UINT32_MAX};
enum { VALUES = sizeof values / sizeof values[0] };

static void made(uint32_t val)
{
    EQUAL(wq_k_futex_init(&m.futex, val), WQ_OK);
    CHECK(wq_k_futex_audit(&m.futex));
}

static void numbers(int64_t val, int64_t waiters)
{
    EQUAL(wq_k_futex_val_get(&m.futex), val);
    EQUAL(wq_k_futex_num_waiters(&m.futex), waiters);
    CHECK(wq_k_futex_audit(&m.futex));
}

static void waits(uint32_t expected, uint32_t id, uint32_t priority)
{
    EQUAL(wq_k_futex_wait(&m.futex, expected, running(id, priority)), WQ_WAITS);
    EQUAL(m.thread.state, WQ_BLOCKED);
}

static void three_wait(void)
{
    made(1);
    waits(1, 7, 5);
    waits(1, 3, 2);
    waits(1, 9, 5);
    QUEUE(3, 7, 9);
}

static void all_wait(void)
{
    made(1);
    for (uint32_t id = 0; id < WQ_MAX_WAITERS; id++)
        waits(1, id, 31 - id % WQ_MAX_PRIORITY);
}

/* The gate to the pasture is shut while the word is 0. The feeder lets one in, then opens it for all; who comes after
 * that finds another word than it expects and does not wait. */
static void the_gate_to_the_pasture(void)
{
    enum { SHUT, OPEN };
    static const uint32_t priorities[] = {6, 6, 3, 6}, after[] = {0, 1};
    struct wq_thread cow[4];

    made(SHUT);
    for (uint32_t i = 0; i < 4; i++) {
        EQUAL(wq_thread_init(&cow[i], i, priorities[i]), WQ_OK);
        EQUAL(wq_dispatch(&cow[i]), WQ_OK);
    }
    for (int i = 0; i < 3; i++) {
        EQUAL(wq_k_futex_wait(&m.futex, SHUT, &cow[i]), WQ_WAITS);
        CHECK(wq_thread_is_blocked(cow[i].state));
    }
    QUEUE(2, 0, 1);

    EQUAL(wq_k_futex_wake(&m.futex, false, m.out, PLACE), 1);
    EQUAL(wq_woken_id(m.out[0]), 2);
    EQUAL(wq_wake(&cow[2], wq_woken_result(m.out[0])), WQ_OK);
    EQUAL(cow[2].return_value, WQ_OK);
    numbers(SHUT, 2);

    EQUAL(wq_k_futex_val_set(&m.futex, OPEN), WQ_OK);
    numbers(OPEN, 2);
    keep();
    EQUAL(wq_k_futex_wake(&m.futex, true, m.out, PLACE), 2);
    CHECK(handed_out(WQ_OK, after, 2));
    for (int i = 0; i < 2; i++)
        EQUAL(wq_wake(&cow[after[i]], wq_woken_result(m.out[i])), WQ_OK);
    REFUSED(wq_k_futex_wait(&m.futex, SHUT, &cow[3]), WQ_EAGAIN);
    EQUAL(cow[3].state, WQ_RUNNING);
    numbers(OPEN, 0);
}

static void a_new_futex(void)
{
    for (size_t i = 0; i < VALUES; i++) {
        keep();
        made(values[i]);
        numbers(values[i], 0);
        ALLOW(m.futex.head);
        CHECK(stays());
    }
}

static void a_wait_for_the_value_that_it_has(void)
{
    for (size_t i = 0; i < VALUES; i++) {
        made(values[i]);
        m.thread = (struct wq_thread){7, 5, WQ_RUNNING, 3};
        keep();
        EQUAL(wq_k_futex_wait(&m.futex, values[i], &m.thread), WQ_WAITS);
        EQUAL(m.thread.state, WQ_BLOCKED);
        QUEUE(7);
        numbers(values[i], 1);
        ALLOW(m.thread.state);
        ALLOW(m.futex.head[LEN]);
        ALLOW(m.futex.entry[0]);
        CHECK(stays());
    }
}

static void refused(uint32_t expected, uint32_t id, uint32_t priority, uint32_t state, int32_t code)
{
    m.thread = (struct wq_thread){id, priority, state, 0};
    REFUSED(wq_k_futex_wait(&m.futex, expected, &m.thread), code);
}

static void a_wait_for_another_value(void)
{
    for (size_t i = 0; i < VALUES; i++) {
        for (size_t k = 0; k < VALUES; k++) {
            made(values[i]);
            if (i != k)
                refused(values[k], 7, 5, WQ_RUNNING, WQ_EAGAIN);
        }
    }
    three_wait();
    refused(0, 8, 5, WQ_RUNNING, WQ_EAGAIN);
    refused(1u << 31 | 1, 8, 5, WQ_RUNNING, WQ_EAGAIN);
}

static void a_thread_waits_behind_equal_and_higher(void)
{
    three_wait();
    waits(1, 1, 31);
    waits(1, 2, 0);
    waits(1, 5, 2);
    waits(1, 6, 5);
    QUEUE(2, 3, 5, 7, 9, 6, 1);
    numbers(1, 7);
}

static void an_entry_is_priority_and_id(void)
{
    made(1);
    waits(1, UINT32_MAX, 31);
    waits(1, 0, 0);
    CHECK(m.futex.entry[0] == entry_of(31, UINT32_MAX));
    CHECK(m.futex.entry[1] == 0);
}

static void who_waits_here_cannot_wait_twice(void)
{
    static const uint32_t ids[] = {3, 7, 9};
    three_wait();
    for (int i = 0; i < 3; i++)
        refused(1, ids[i], 0, WQ_RUNNING, WQ_EBUSY);
}

static void one_too_many_is_refused(void)
{
    all_wait();
    numbers(1, WQ_MAX_WAITERS);
    refused(1, 100, 0, WQ_RUNNING, WQ_ENOMEM);
    EQUAL(wq_k_futex_wake(&m.futex, false, m.out, PLACE), 1);
    waits(1, 100, 0);
    numbers(1, WQ_MAX_WAITERS);
}

/* The caller's numbers are tested before the value. */
static void bad_callers_are_refused(uint32_t expected, uint32_t id)
{
    for (size_t i = 0; i < BAD_CALLERS; i++)
        refused(expected, id, bad_callers[i].priority, bad_callers[i].state, bad_callers[i].code);
}

static void bad_callers_cannot_wait(void)
{
    made(1);
    bad_callers_are_refused(1, 8);
    bad_callers_are_refused(0, 8);
    three_wait();
    bad_callers_are_refused(1, 7);
    bad_callers_are_refused(0, 7);
    all_wait();
    bad_callers_are_refused(1, 100);
    bad_callers_are_refused(0, 100);
}

static void of_two_refusals_the_first_is_answered(void)
{
    three_wait();
    refused(0, 7, 5, WQ_RUNNING, WQ_EAGAIN);
    all_wait();
    refused(0, 100, 5, WQ_RUNNING, WQ_EAGAIN);
    refused(0, 7, 5, WQ_RUNNING, WQ_EAGAIN);
    refused(1, 7, 5, WQ_RUNNING, WQ_EBUSY);
    m.futex.head[LEN] = WQ_MAX_WAITERS + 1;
    refused(1, 7, 5, WQ_RUNNING, WQ_EINVAL);
    refused(0, 7, 5, WQ_RUNNING, WQ_EINVAL);
    refused(0, 7, 5, WQ_BLOCKED, WQ_EINVAL);
}

static void one_is_woken(void)
{
    static const uint32_t ids[] = {3, 7, 9};
    three_wait();
    for (int i = 0; i < 3; i++) {
        keep();
        EQUAL(wq_k_futex_wake(&m.futex, false, m.out, i == 1 ? PLACE : 1), 1);
        CHECK(handed_out(WQ_OK, ids + i, 1));
        numbers(1, 2 - i);
        ALLOW(m.futex.head[LEN]);
        ALLOW(m.out[0]);
        CHECK(stays());
    }
}

static void all_are_woken(void)
{
    three_wait();
    keep();
    EQUAL(wq_k_futex_wake(&m.futex, true, m.out, PLACE), 3);
    CHECK(handed_out(WQ_OK, IDS(3, 7, 9)));
    numbers(1, 0);
    ALLOW(m.futex.head[LEN]);
    ALLOW(m.out);
    CHECK(stays());
}

static void all_of_a_full_queue_are_woken(void)
{
    uint32_t ids[WQ_MAX_WAITERS];
    const size_t count = all_in_order(ids);
    all_wait();
    keep();
    EQUAL(wq_k_futex_wake(&m.futex, true, m.out, WQ_MAX_WAITERS), WQ_MAX_WAITERS);
    CHECK(handed_out(WQ_OK, ids, count));
    numbers(1, 0);
}

static void each_of_a_full_queue_is_woken(void)
{
    uint32_t ids[WQ_MAX_WAITERS];
    const size_t count = all_in_order(ids);
    all_wait();
    for (size_t i = 0; i < count; i++) {
        keep();
        EQUAL(wq_k_futex_wake(&m.futex, false, m.out, 1), 1);
        CHECK(handed_out(WQ_OK, ids + i, 1));
        numbers(1, (int64_t)(count - 1 - i));
    }
}

static void nobody_is_woken_where_nobody_waits(void)
{
    made(1);
    keep();
    for (int all = 0; all < 2; all++) {
        EQUAL(wq_k_futex_wake(&m.futex, all, m.out, 0), 0);
        EQUAL(wq_k_futex_wake(&m.futex, all, m.out, PLACE), 0);
    }
    CHECK(stays());
}

static void a_place_that_just_fits_is_enough(void)
{
    three_wait();
    keep();
    EQUAL(wq_k_futex_wake(&m.futex, true, m.out, 3), 3);
    CHECK(handed_out(WQ_OK, IDS(3, 7, 9)));
}

static void a_place_that_is_too_short_is_refused(void)
{
    three_wait();
    REFUSED(wq_k_futex_wake(&m.futex, false, m.out, 0), WQ_EINVAL);
    REFUSED(wq_k_futex_wake(&m.futex, true, m.out, 0), WQ_EINVAL);
    REFUSED(wq_k_futex_wake(&m.futex, true, m.out, 1), WQ_EINVAL);
    REFUSED(wq_k_futex_wake(&m.futex, true, m.out, 2), WQ_EINVAL);
    all_wait();
    REFUSED(wq_k_futex_wake(&m.futex, false, m.out, 0), WQ_EINVAL);
    REFUSED(wq_k_futex_wake(&m.futex, true, m.out, WQ_MAX_WAITERS - 1), WQ_EINVAL);
}

static void a_new_value_wakes_nobody(void)
{
    three_wait();
    for (size_t i = 0; i < VALUES; i++) {
        keep();
        EQUAL(wq_k_futex_val_set(&m.futex, values[i]), WQ_OK);
        numbers(values[i], 3);
        ALLOW(m.futex.head[VAL]);
        CHECK(stays());
    }
    all_wait();
    EQUAL(wq_k_futex_val_set(&m.futex, 2), WQ_OK);
    numbers(2, WQ_MAX_WAITERS);
}

static void a_wait_for_a_new_value(void)
{
    three_wait();
    EQUAL(wq_k_futex_val_set(&m.futex, 2), WQ_OK);
    refused(1, 8, 5, WQ_RUNNING, WQ_EAGAIN);
    waits(2, 8, 5);
    QUEUE(3, 7, 9, 8);
}

static void a_thread_whose_time_is_over_leaves(void)
{
    three_wait();
    EQUAL(wq_k_futex_remove(&m.futex, 7), WQ_OK);
    QUEUE(3, 9);
    REFUSED(wq_k_futex_remove(&m.futex, 7), WQ_ENOENT);
    EQUAL(wq_k_futex_remove(&m.futex, 3), WQ_OK);
    waits(1, 7, 5);
    QUEUE(9, 7);
    EQUAL(wq_k_futex_remove(&m.futex, 7), WQ_OK);
    EQUAL(wq_k_futex_remove(&m.futex, 9), WQ_OK);
    numbers(1, 0);
}

static void entries_behind_the_queue_stay(void)
{
    three_wait();
    EQUAL(wq_k_futex_wake(&m.futex, false, m.out, PLACE), 1);
    waits(1, 1, 31);
    EQUAL(wq_k_futex_wake(&m.futex, true, m.out, PLACE), 3);
    for (const unsigned char *p = (unsigned char *)&m.futex.entry[3]; p < (unsigned char *)(&m.futex + 1); p++)
        EQUAL(*p, FILL);
}

static void a_length_above_the_limit_is_refused(void)
{
    all_wait();
    for (size_t i = 0; i < TOO_LONG; i++) {
        m.futex.head[LEN] = too_long[i];
        refused(1, 100, 5, WQ_RUNNING, WQ_EINVAL);
        REFUSED(wq_k_futex_wake(&m.futex, false, m.out, PLACE), WQ_EINVAL);
        REFUSED(wq_k_futex_wake(&m.futex, true, m.out, PLACE), WQ_EINVAL);
        REFUSED(wq_k_futex_val_set(&m.futex, 2), WQ_EINVAL);
        REFUSED(wq_k_futex_val_get(&m.futex), WQ_EINVAL);
        REFUSED(wq_k_futex_num_waiters(&m.futex), WQ_EINVAL);
        REFUSED(wq_k_futex_remove(&m.futex, 7), WQ_EINVAL);
        REFUSED(wq_k_futex_audit(&m.futex), false);
    }
}

static void an_audit_changes_nothing(void)
{
    all_wait();
    keep();
    CHECK(wq_k_futex_audit(&m.futex));
    CHECK(stays());
}

static void an_audit_finds_a_bad_queue(void)
{
    for (size_t i = 0; i < BAD_ENTRIES; i++) {
        three_wait();
        m.futex.entry[bad_entries[i].at] = entry_of(bad_entries[i].priority, bad_entries[i].id);
        REFUSED(wq_k_futex_audit(&m.futex), false);
    }
}

/* What is behind the entries would continue the queue. */
static void an_audit_does_not_look_behind_the_entries(void)
{
    struct {
        struct wq_futex futex;
        uint64_t behind;
    } place;
    all_wait();
    place.futex = m.futex;
    place.behind = entry_of(0, 100);
    CHECK(wq_k_futex_audit(&place.futex));
    place.futex.head[LEN] = WQ_MAX_WAITERS + 1;
    CHECK(!wq_k_futex_audit(&place.futex));
}

static void wait_decisions(void)
{
    for (size_t i = 0; i < VALUES; i++)
        for (size_t k = 0; k < VALUES; k++)
            EQUAL(wq_futex_wait_decide(values[i], values[k]), i == k ? WQ_WAITS : WQ_EAGAIN);
}

static void wake_decisions(void)
{
    for (uint32_t n = 0; n <= WQ_MAX_WAITERS; n++) {
        uint32_t remaining = 77;
        EQUAL(wq_futex_wake_decide(n, true, &remaining), n);
        EQUAL(remaining, 0);
        remaining = 77;
        EQUAL(wq_futex_wake_decide(n, false, &remaining), n > 0);
        EQUAL(remaining, n > 0 ? n - 1 : 0);
    }
    for (size_t i = 0; i < TOO_LONG; i++) {
        uint32_t remaining = 77;
        EQUAL(wq_futex_wake_decide(too_long[i], true, &remaining), WQ_EINVAL);
        EQUAL(wq_futex_wake_decide(too_long[i], false, &remaining), WQ_EINVAL);
        EQUAL(remaining, 77);
    }
}

static void decide_functions_agree(void)
{
    for (size_t i = 0; i < VALUES; i++) {
        for (size_t k = 0; k < VALUES; k++) {
            made(values[i]);
            EQUAL(wq_k_futex_wait(&m.futex, values[k], running(8, 5)), wq_futex_wait_decide(values[i], values[k]));
        }
    }
    all_wait();
    for (uint32_t n = 0; n <= WQ_MAX_WAITERS + 1; n++) {
        for (int all = 0; all < 2; all++) {
            uint32_t remaining = n;
            m.futex.head[LEN] = n;
            EQUAL(wq_k_futex_wake(&m.futex, all, m.out, PLACE), wq_futex_wake_decide(n, all, &remaining));
            EQUAL(m.futex.head[LEN], remaining);
        }
    }
}

static const struct test tests[] = {
    TEST(the_gate_to_the_pasture),
    TEST(a_new_futex),
    TEST(a_wait_for_the_value_that_it_has),
    TEST(a_wait_for_another_value),
    TEST(a_thread_waits_behind_equal_and_higher),
    TEST(an_entry_is_priority_and_id),
    TEST(who_waits_here_cannot_wait_twice),
    TEST(one_too_many_is_refused),
    TEST(bad_callers_cannot_wait),
    TEST(of_two_refusals_the_first_is_answered),
    TEST(one_is_woken),
    TEST(all_are_woken),
    TEST(all_of_a_full_queue_are_woken),
    TEST(each_of_a_full_queue_is_woken),
    TEST(nobody_is_woken_where_nobody_waits),
    TEST(a_place_that_just_fits_is_enough),
    TEST(a_place_that_is_too_short_is_refused),
    TEST(a_new_value_wakes_nobody),
    TEST(a_wait_for_a_new_value),
    TEST(a_thread_whose_time_is_over_leaves),
    TEST(entries_behind_the_queue_stay),
    TEST(a_length_above_the_limit_is_refused),
    TEST(an_audit_changes_nothing),
    TEST(an_audit_finds_a_bad_queue),
    TEST(an_audit_does_not_look_behind_the_entries),
    TEST(wait_decisions),
    TEST(wake_decisions),
    TEST(decide_functions_agree),
};

const struct group futex_group = GROUP("futex", tests);
