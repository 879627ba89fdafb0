/* Codes, priorities and threads.
 *
 * SPDX-License-Identifier: Apache-2.0
 */
#include "check.h"

static const uint32_t invalid[] = {32, 33, 1u << 31, UINT32_MAX};
enum { INVALID = sizeof invalid / sizeof invalid[0] };

static void the_codes(void)
{
    EQUAL(WQ_OK, 0);
    EQUAL(WQ_WAITS, 1);
    EQUAL(WQ_EPERM, -1);
    EQUAL(WQ_ENOENT, -2);
    EQUAL(WQ_EAGAIN, -11);
    EQUAL(WQ_ENOMEM, -12);
    EQUAL(WQ_EBUSY, -16);
    EQUAL(WQ_EINVAL, -22);
    EQUAL(WQ_EPIPE, -32);
    EQUAL(WQ_ENOMSG, -35);
    EQUAL(WQ_EDEADLK, -45);
    EQUAL(WQ_EOVERFLOW, -139);
    EQUAL(WQ_ECANCELED, -140);
}

static void priorities_are_0_to_31(void)
{
    for (uint32_t p = 0; p < WQ_MAX_PRIORITY; p++) {
        EQUAL(wq_priority_new(p), p);
        EQUAL(wq_priority_get(p), p);
    }
    for (size_t i = 0; i < INVALID; i++) {
        EQUAL(wq_priority_new(invalid[i]), WQ_EINVAL);
        EQUAL(wq_priority_get(invalid[i]), WQ_EINVAL);
    }
}

static void a_lower_number_is_higher(void)
{
    for (uint32_t a = 0; a < WQ_MAX_PRIORITY; a++) {
        for (uint32_t b = 0; b < WQ_MAX_PRIORITY; b++) {
            EQUAL(wq_priority_is_higher_than(a, b), a < b);
            EQUAL(wq_priority_is_higher_or_equal(a, b), a <= b);
        }
        for (size_t i = 0; i < INVALID; i++) {
            EQUAL(wq_priority_is_higher_than(a, invalid[i]), WQ_EINVAL);
            EQUAL(wq_priority_is_higher_than(invalid[i], a), WQ_EINVAL);
            EQUAL(wq_priority_is_higher_or_equal(a, invalid[i]), WQ_EINVAL);
            EQUAL(wq_priority_is_higher_or_equal(invalid[i], a), WQ_EINVAL);
        }
    }
}

static void a_new_thread_is_ready(void)
{
    EQUAL(wq_thread_init(&m.thread, 7, 31), WQ_OK);
    EQUAL(m.thread.id, 7);
    EQUAL(m.thread.priority, 31);
    EQUAL(m.thread.state, WQ_READY);
    EQUAL(m.thread.return_value, 0);
}

static void a_new_thread_needs_a_priority(void)
{
    for (size_t i = 0; i < INVALID; i++)
        REFUSED(wq_thread_init(&m.thread, 7, invalid[i]), WQ_EINVAL);
}

static void a_life(void)
{
    EQUAL(wq_thread_init(&m.thread, 7, 5), WQ_OK);
    EQUAL(wq_dispatch(&m.thread), WQ_OK);
    EQUAL(m.thread.state, WQ_RUNNING);
    EQUAL(wq_block(&m.thread), WQ_OK);
    EQUAL(m.thread.state, WQ_BLOCKED);
    EQUAL(m.thread.return_value, 0);
    EQUAL(wq_wake(&m.thread, INT32_MIN), WQ_OK);
    EQUAL(m.thread.state, WQ_READY);
    EQUAL(m.thread.return_value, INT32_MIN);
    EQUAL(m.thread.id, 7);
    EQUAL(m.thread.priority, 5);
}

static void other_states_are_refused(void)
{
    const uint32_t states[] = {WQ_READY, WQ_RUNNING, WQ_BLOCKED, WQ_SUSPENDED, 4, UINT32_MAX};
    for (size_t i = 0; i < sizeof states / sizeof states[0]; i++) {
        m.thread = (struct wq_thread){7, 5, states[i], 3};
        if (states[i] != WQ_READY)
            REFUSED(wq_dispatch(&m.thread), WQ_EINVAL);
        if (states[i] != WQ_RUNNING)
            REFUSED(wq_block(&m.thread), WQ_EINVAL);
        if (states[i] != WQ_BLOCKED)
            REFUSED(wq_wake(&m.thread, 0), WQ_EINVAL);
        EQUAL(wq_thread_is_blocked(states[i]), states[i] == WQ_BLOCKED);
    }
}

static void a_priority_above_31_is_refused(void)
{
    m.thread = (struct wq_thread){7, 32, WQ_READY, 3};
    REFUSED(wq_dispatch(&m.thread), WQ_EINVAL);
    m.thread.state = WQ_RUNNING;
    REFUSED(wq_block(&m.thread), WQ_EINVAL);
    m.thread.state = WQ_BLOCKED;
    REFUSED(wq_wake(&m.thread, 0), WQ_EINVAL);
}

static const struct test tests[] = {
    TEST(the_codes),
    TEST(priorities_are_0_to_31),
    TEST(a_lower_number_is_higher),
    TEST(a_new_thread_is_ready),
    TEST(a_new_thread_needs_a_priority),
    TEST(a_life),
    TEST(other_states_are_refused),
    TEST(a_priority_above_31_is_refused),
};

const struct group thread_group = GROUP("thread", tests);
