/* The wait queue.
 *
 * SPDX-License-Identifier: Apache-2.0
 */
#include "check.h"

#define QUEUE(...) CHECK(queue_is(m.queue.entry, m.queue.len, IDS(__VA_ARGS__)))

static void pend(uint32_t id, uint32_t priority)
{
    EQUAL(wq_pend(&m.queue, running(id, priority)), WQ_WAITS);
    CHECK(wq_audit(&m.queue));
}

static void three_wait(void)
{
    wq_init(&m.queue);
    pend(7, 5);
    pend(3, 2);
    pend(9, 5);
    QUEUE(3, 7, 9);
}

static uint32_t priority_of(uint32_t id) { return id * 5 % WQ_MAX_PRIORITY; }

static void all_wait(void)
{
    wq_init(&m.queue);
    for (uint32_t id = 0; id < WQ_MAX_WAITERS; id++)
        pend(id, priority_of(id));
}

static void a_new_queue_is_empty(void)
{
    const uint32_t len = m.queue.len;
    keep();
    wq_init(&m.queue);
    EQUAL(wq_len(&m.queue), 0);
    EQUAL(wq_is_empty(&m.queue), 1);
    CHECK(wq_audit(&m.queue));
    m.queue.len = len;
    CHECK(stays());
}

static void a_thread_waits_behind_equal_and_higher(void)
{
    three_wait();
    pend(1, 31);
    pend(2, 0);
    pend(4, 5);
    pend(5, 2);
    pend(6, 31);
    QUEUE(2, 3, 5, 7, 9, 4, 1, 6);
    EQUAL(wq_len(&m.queue), 8);
    EQUAL(wq_is_empty(&m.queue), 0);
}

static void an_entry_is_priority_and_id(void)
{
    wq_init(&m.queue);
    pend(UINT32_MAX, 31);
    pend(0, 0);
    CHECK(m.queue.entry[0] == entry_of(31, UINT32_MAX));
    CHECK(m.queue.entry[1] == 0);
}

static void who_waits_is_blocked(void)
{
    wq_init(&m.queue);
    m.thread = (struct wq_thread){7, 5, WQ_RUNNING, 3};
    EQUAL(wq_pend(&m.queue, &m.thread), WQ_WAITS);
    EQUAL(m.thread.state, WQ_BLOCKED);
    EQUAL(m.thread.id, 7);
    EQUAL(m.thread.priority, 5);
    EQUAL(m.thread.return_value, 3);
}

static void the_first_is_woken_with_the_result(void)
{
    const int32_t results[] = {INT32_MIN, WQ_EAGAIN, INT32_MAX};
    const uint32_t ids[] = {3, 7, 9};
    three_wait();
    for (int i = 0; i < 3; i++) {
        EQUAL(wq_unpend_first(&m.queue, results[i], &m.who), 1);
        EQUAL(wq_woken_id(m.who), ids[i]);
        EQUAL(wq_woken_result(m.who), results[i]);
        CHECK(queue_is(m.queue.entry, m.queue.len, ids + i + 1, (size_t)(2 - i)));
    }
}

static void nobody_is_woken_from_an_empty_queue(void)
{
    wq_init(&m.queue);
    keep();
    EQUAL(wq_unpend_first(&m.queue, 0, &m.who), 0);
    EQUAL(wq_unpend_all(&m.queue, 0, m.out, 0), 0);
    EQUAL(wq_unpend_all(&m.queue, 0, m.out, PLACE), 0);
    CHECK(stays());
}

static void all_are_handed_out_with_the_result(void)
{
    const int32_t results[] = {WQ_EAGAIN, 5};
    for (int i = 0; i < 2; i++) {
        three_wait();
        keep();
        EQUAL(wq_unpend_all(&m.queue, results[i], m.out, PLACE), 3);
        CHECK(handed_out(results[i], IDS(3, 7, 9)));
        EQUAL(wq_len(&m.queue), 0);
    }
}

static void a_place_that_just_fits_is_enough(void)
{
    three_wait();
    keep();
    EQUAL(wq_unpend_all(&m.queue, 0, m.out, 3), 3);
    CHECK(handed_out(0, IDS(3, 7, 9)));
}

static void a_place_that_is_too_short_is_refused(void)
{
    three_wait();
    REFUSED(wq_unpend_all(&m.queue, 0, m.out, 2), WQ_EINVAL);
    REFUSED(wq_unpend_all(&m.queue, 0, m.out, 0), WQ_EINVAL);
}

static void a_full_queue_is_handed_out_in_order(void)
{
    uint32_t ids[WQ_MAX_WAITERS];
    size_t count = 0;
    for (uint32_t priority = 0; priority < WQ_MAX_PRIORITY; priority++)
        for (uint32_t id = 0; id < WQ_MAX_WAITERS; id++)
            if (priority_of(id) == priority)
                ids[count++] = id;
    all_wait();
    CHECK(queue_is(m.queue.entry, m.queue.len, ids, count));
    EQUAL(wq_unpend_all(&m.queue, -1, m.out, PLACE), WQ_MAX_WAITERS);
    CHECK(handed_out(-1, ids, count));
}

static void one_too_many_is_refused(void)
{
    all_wait();
    EQUAL(wq_len(&m.queue), WQ_MAX_WAITERS);
    running(WQ_MAX_WAITERS, 0);
    REFUSED(wq_pend(&m.queue, &m.thread), WQ_ENOMEM);
    EQUAL(wq_unpend_first(&m.queue, 0, &m.who), 1);
    EQUAL(wq_pend(&m.queue, &m.thread), WQ_WAITS);
}

static void the_first_is_removed(void)
{
    three_wait();
    EQUAL(wq_remove(&m.queue, 3), WQ_OK);
    QUEUE(7, 9);
}

static void one_in_the_middle_is_removed(void)
{
    three_wait();
    EQUAL(wq_remove(&m.queue, 7), WQ_OK);
    QUEUE(3, 9);
}

static void the_last_is_removed(void)
{
    three_wait();
    EQUAL(wq_remove(&m.queue, 9), WQ_OK);
    QUEUE(3, 7);
}

static void the_only_one_is_removed(void)
{
    wq_init(&m.queue);
    pend(UINT32_MAX, 0);
    EQUAL(wq_remove(&m.queue, UINT32_MAX), WQ_OK);
    EQUAL(wq_len(&m.queue), 0);
}

static void who_is_not_there_is_not_removed(void)
{
    three_wait();
    REFUSED(wq_remove(&m.queue, 8), WQ_ENOENT);
    wq_init(&m.queue);
    REFUSED(wq_remove(&m.queue, 3), WQ_ENOENT);
}

static void who_stands_there_twice_is_removed_whole(void)
{
    three_wait();
    m.queue.entry[0] = entry_of(5, 7);
    EQUAL(wq_remove(&m.queue, 7), WQ_OK);
    QUEUE(3);
}

static void who_was_removed_can_wait_again(void)
{
    three_wait();
    EQUAL(wq_remove(&m.queue, 7), WQ_OK);
    pend(7, 5);
    QUEUE(3, 9, 7);
}

static void who_waits_here_cannot_wait_twice(void)
{
    three_wait();
    running(7, 0);
    REFUSED(wq_pend(&m.queue, &m.thread), WQ_EBUSY);
}

static void who_waits_somewhere_cannot_wait(void)
{
    three_wait();
    running(8, 5)->state = WQ_BLOCKED;
    REFUSED(wq_pend(&m.queue, &m.thread), WQ_EBUSY);
}

static void who_does_not_run_cannot_wait(void)
{
    const uint32_t states[] = {WQ_READY, WQ_SUSPENDED, 4, UINT32_MAX};
    three_wait();
    for (size_t i = 0; i < sizeof states / sizeof states[0]; i++) {
        running(8, 5)->state = states[i];
        REFUSED(wq_pend(&m.queue, &m.thread), WQ_EINVAL);
    }
}

static void a_priority_above_31_cannot_wait(void)
{
    three_wait();
    running(8, 32);
    REFUSED(wq_pend(&m.queue, &m.thread), WQ_EINVAL);
    running(8, UINT32_MAX);
    REFUSED(wq_pend(&m.queue, &m.thread), WQ_EINVAL);
}

static void of_two_refusals_the_first_is_answered(void)
{
    all_wait();
    m.thread = (struct wq_thread){7, 32, WQ_BLOCKED, 0};
    REFUSED(wq_pend(&m.queue, &m.thread), WQ_EINVAL);
    m.thread = (struct wq_thread){7, 5, WQ_READY, 0};
    REFUSED(wq_pend(&m.queue, &m.thread), WQ_EINVAL);
    m.thread = (struct wq_thread){WQ_MAX_WAITERS, 5, WQ_BLOCKED, 0};
    REFUSED(wq_pend(&m.queue, &m.thread), WQ_EBUSY);
    m.thread = (struct wq_thread){7, 5, WQ_RUNNING, 0};
    REFUSED(wq_pend(&m.queue, &m.thread), WQ_EBUSY);
    m.queue.len = WQ_MAX_WAITERS + 1;
    m.thread.state = WQ_BLOCKED;
    REFUSED(wq_pend(&m.queue, &m.thread), WQ_EINVAL);
}

static void a_length_above_the_limit_is_refused(void)
{
    all_wait();
    running(WQ_MAX_WAITERS, 5);
    for (size_t i = 0; i < TOO_LONG; i++) {
        m.queue.len = too_long[i];
        REFUSED(wq_len(&m.queue), WQ_EINVAL);
        REFUSED(wq_is_empty(&m.queue), WQ_EINVAL);
        REFUSED(wq_pend(&m.queue, &m.thread), WQ_EINVAL);
        REFUSED(wq_unpend_first(&m.queue, 0, &m.who), WQ_EINVAL);
        REFUSED(wq_unpend_all(&m.queue, 0, m.out, PLACE), WQ_EINVAL);
        REFUSED(wq_remove(&m.queue, 7), WQ_EINVAL);
        REFUSED(wq_audit(&m.queue), false);
    }
}

static void entries_behind_the_queue_stay(void)
{
    const size_t behind = offsetof(struct wq_wait_queue, entry) + 3 * sizeof m.queue.entry[0];
    unsigned char *rest = (unsigned char *)&m.queue + behind;
    three_wait();
    EQUAL(wq_unpend_first(&m.queue, 0, &m.who), 1);
    EQUAL(wq_remove(&m.queue, 9), WQ_OK);
    pend(1, 1);
    EQUAL(wq_unpend_all(&m.queue, 0, m.out, PLACE), 2);
    for (size_t i = 0; i < sizeof m.queue - behind; i++)
        EQUAL(rest[i], FILL);
}

static void an_audit_changes_nothing(void)
{
    all_wait();
    keep();
    CHECK(wq_audit(&m.queue));
    CHECK(stays());
}

/* In the queue 3, 7, 9, these for the entries of 7 and 3. */
static void an_audit_finds(uint64_t second, uint64_t first)
{
    three_wait();
    m.queue.entry[1] = second;
    m.queue.entry[2] = first;
    REFUSED(wq_audit(&m.queue), false);
}

static void an_audit_finds_what_is_unsorted(void)
{
    an_audit_finds(entry_of(2, 3), entry_of(5, 7));
    an_audit_finds(entry_of(6, 7), entry_of(2, 3));
}

static void an_audit_finds_a_thread_twice(void)
{
    an_audit_finds(entry_of(5, 7), entry_of(2, 7));
    an_audit_finds(entry_of(5, 7), entry_of(2, 9));
}

static void an_audit_finds_a_priority_above_31(void)
{
    wq_init(&m.queue);
    pend(7, 31);
    m.queue.entry[0] = entry_of(32, 7);
    REFUSED(wq_audit(&m.queue), false);
    m.queue.entry[0] = UINT64_MAX;
    REFUSED(wq_audit(&m.queue), false);
}

static const struct test tests[] = {
    TEST(a_new_queue_is_empty),
    TEST(a_thread_waits_behind_equal_and_higher),
    TEST(an_entry_is_priority_and_id),
    TEST(who_waits_is_blocked),
    TEST(the_first_is_woken_with_the_result),
    TEST(nobody_is_woken_from_an_empty_queue),
    TEST(all_are_handed_out_with_the_result),
    TEST(a_place_that_just_fits_is_enough),
    TEST(a_place_that_is_too_short_is_refused),
    TEST(a_full_queue_is_handed_out_in_order),
    TEST(one_too_many_is_refused),
    TEST(the_first_is_removed),
    TEST(one_in_the_middle_is_removed),
    TEST(the_last_is_removed),
    TEST(the_only_one_is_removed),
    TEST(who_is_not_there_is_not_removed),
    TEST(who_stands_there_twice_is_removed_whole),
    TEST(who_was_removed_can_wait_again),
    TEST(who_waits_here_cannot_wait_twice),
    TEST(who_waits_somewhere_cannot_wait),
    TEST(who_does_not_run_cannot_wait),
    TEST(a_priority_above_31_cannot_wait),
    TEST(of_two_refusals_the_first_is_answered),
    TEST(a_length_above_the_limit_is_refused),
    TEST(entries_behind_the_queue_stay),
    TEST(an_audit_changes_nothing),
    TEST(an_audit_finds_what_is_unsorted),
    TEST(an_audit_finds_a_thread_twice),
    TEST(an_audit_finds_a_priority_above_31),
};

const struct group wait_queue_group = GROUP("wait_queue", tests);
