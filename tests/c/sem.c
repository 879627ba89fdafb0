/* The counting semaphore.
 *
 * SPDX-License-Identifier: Apache-2.0
 */
#include "check.h"

enum { COUNT, LIMIT, LEN };

#define QUEUE(...) CHECK(queue_is(m.sem.entry, m.sem.head[LEN], IDS(__VA_ARGS__)))

static void made(uint32_t count, uint32_t limit)
{
    EQUAL(wq_k_sem_init(&m.sem, count, limit), WQ_OK);
    CHECK(wq_k_sem_audit(&m.sem));
}

static void numbers(int64_t count, int64_t limit, int64_t waiters)
{
    EQUAL(wq_k_sem_count_get(&m.sem), count);
    EQUAL(wq_k_sem_limit_get(&m.sem), limit);
    EQUAL(wq_k_sem_num_waiters(&m.sem), waiters);
    CHECK(wq_k_sem_audit(&m.sem));
}

static void take(uint32_t id, uint32_t priority, int32_t answer)
{
    EQUAL(wq_k_sem_take(&m.sem, running(id, priority)), answer);
    EQUAL(m.thread.state, answer == WQ_WAITS ? WQ_BLOCKED : WQ_RUNNING);
}

static void three_wait(void)
{
    made(0, 2);
    take(7, 5, WQ_WAITS);
    take(3, 2, WQ_WAITS);
    take(9, 5, WQ_WAITS);
    QUEUE(3, 7, 9);
}

static void all_wait(void)
{
    made(0, 2);
    for (uint32_t id = 0; id < WQ_MAX_WAITERS; id++)
        take(id, 31 - id % WQ_MAX_PRIORITY, WQ_WAITS);
}

static void the_worked_run(void)
{
    struct wq_thread threads[3];
    const uint32_t ids[] = {7, 3, 9}, priorities[] = {5, 2, 5}, woken[] = {1, 0, 2};

    made(0, 2);
    for (int i = 0; i < 3; i++) {
        EQUAL(wq_thread_init(&threads[i], ids[i], priorities[i]), WQ_OK);
        EQUAL(wq_dispatch(&threads[i]), WQ_OK);
        EQUAL(wq_k_sem_take(&m.sem, &threads[i]), WQ_WAITS);
        CHECK(wq_thread_is_blocked(threads[i].state));
    }
    QUEUE(3, 7, 9);
    for (int i = 0; i < 3; i++) {
        struct wq_thread *t = &threads[woken[i]];
        EQUAL(wq_k_sem_give(&m.sem, &m.who), WQ_GIVE_WOKE);
        EQUAL(wq_woken_id(m.who), t->id);
        EQUAL(wq_wake(t, wq_woken_result(m.who)), WQ_OK);
        EQUAL(t->state, WQ_READY);
        EQUAL(t->return_value, WQ_OK);
        numbers(0, 2, 2 - i);
    }
    EQUAL(wq_k_sem_give(&m.sem, &m.who), WQ_GIVE_INCREMENTED);
    numbers(1, 2, 0);
    EQUAL(wq_k_sem_give(&m.sem, &m.who), WQ_GIVE_INCREMENTED);
    numbers(2, 2, 0);
    EQUAL(wq_k_sem_give(&m.sem, &m.who), WQ_GIVE_SATURATED);
    numbers(2, 2, 0);
}

static void a_new_semaphore(void)
{
    const uint32_t made_of[][2] = {{0, 1}, {1, 1}, {2, 5}, {0, UINT32_MAX}, {UINT32_MAX, UINT32_MAX}};
    for (size_t i = 0; i < sizeof made_of / sizeof made_of[0]; i++) {
        made(made_of[i][0], made_of[i][1]);
        numbers(made_of[i][0], made_of[i][1], 0);
    }
}

static void a_new_semaphore_leaves_its_entries(void)
{
    const size_t entries = offsetof(struct wq_sem, entry);
    made(0, 2);
    for (size_t i = entries; i < sizeof m.sem; i++)
        EQUAL(((unsigned char *)&m.sem)[i], FILL);
}

static void a_limit_of_0_or_a_count_above_it_is_refused(void)
{
    const uint32_t bad[][2] = {{0, 0}, {1, 0}, {2, 1}, {UINT32_MAX, UINT32_MAX - 1}, {UINT32_MAX, 0}};
    for (size_t i = 0; i < sizeof bad / sizeof bad[0]; i++)
        REFUSED(wq_k_sem_init(&m.sem, bad[i][0], bad[i][1]), WQ_EINVAL);
}

static void a_give_counts_up_to_the_limit(void)
{
    made(UINT32_MAX - 1, UINT32_MAX);
    EQUAL(wq_k_sem_give(&m.sem, &m.who), WQ_GIVE_INCREMENTED);
    numbers(UINT32_MAX, UINT32_MAX, 0);
    keep();
    EQUAL(wq_k_sem_give(&m.sem, &m.who), WQ_GIVE_SATURATED);
    CHECK(stays());
}

static void a_give_that_wakes_nobody_names_nobody(void)
{
    made(0, 1);
    const wq_woken who = m.who;
    EQUAL(wq_k_sem_give(&m.sem, &m.who), WQ_GIVE_INCREMENTED);
    CHECK(m.who == who);
}

static void a_give_wakes_the_first(void)
{
    three_wait();
    EQUAL(wq_k_sem_give(&m.sem, &m.who), WQ_GIVE_WOKE);
    EQUAL(wq_woken_id(m.who), 3);
    EQUAL(wq_woken_result(m.who), WQ_OK);
    QUEUE(7, 9);
    numbers(0, 2, 2);
}

static void a_take_without_waiting(void)
{
    made(2, 2);
    EQUAL(wq_k_sem_try_take(&m.sem), WQ_OK);
    numbers(1, 2, 0);
    EQUAL(wq_k_sem_try_take(&m.sem), WQ_OK);
    numbers(0, 2, 0);
    REFUSED(wq_k_sem_try_take(&m.sem), WQ_EBUSY);
}

static void a_take_without_waiting_behind_others(void)
{
    three_wait();
    REFUSED(wq_k_sem_try_take(&m.sem), WQ_EBUSY);
}

static void a_take_of_what_is_there_does_not_wait(void)
{
    made(1, 2);
    take(7, 5, WQ_OK);
    numbers(0, 2, 0);
    take(7, 5, WQ_WAITS);
    numbers(0, 2, 1);
}

static void a_take_behind_equal_and_higher(void)
{
    three_wait();
    take(1, 31, WQ_WAITS);
    take(2, 0, WQ_WAITS);
    take(5, 2, WQ_WAITS);
    QUEUE(2, 3, 5, 7, 9, 1);
    numbers(0, 2, 6);
}

static void who_waits_here_cannot_take(void)
{
    three_wait();
    running(7, 0);
    REFUSED(wq_k_sem_take(&m.sem, &m.thread), WQ_EBUSY);
}

static void one_too_many_is_refused(void)
{
    all_wait();
    numbers(0, 2, WQ_MAX_WAITERS);
    running(WQ_MAX_WAITERS, 0);
    REFUSED(wq_k_sem_take(&m.sem, &m.thread), WQ_ENOMEM);
    EQUAL(wq_k_sem_give(&m.sem, &m.who), WQ_GIVE_WOKE);
    EQUAL(wq_k_sem_take(&m.sem, &m.thread), WQ_WAITS);
}

/* The caller's numbers are tested first, whether it would have to wait or not. */
static void bad_callers_are_refused(void)
{
    for (size_t i = 0; i < BAD_CALLERS; i++) {
        m.thread = (struct wq_thread){8, bad_callers[i].priority, bad_callers[i].state, 0};
        REFUSED(wq_k_sem_take(&m.sem, &m.thread), bad_callers[i].code);
    }
}

static void bad_callers_cannot_take(void)
{
    made(2, 2);
    bad_callers_are_refused();
}

static void bad_callers_cannot_wait(void)
{
    three_wait();
    bad_callers_are_refused();
}

static void of_two_refusals_the_first_is_answered(void)
{
    all_wait();
    m.thread = (struct wq_thread){7, 5, WQ_READY, 0};
    REFUSED(wq_k_sem_take(&m.sem, &m.thread), WQ_EINVAL);
    m.thread.state = WQ_RUNNING;
    REFUSED(wq_k_sem_take(&m.sem, &m.thread), WQ_EBUSY);
    m.thread.state = WQ_BLOCKED;
    m.sem.head[COUNT] = 1;
    REFUSED(wq_k_sem_take(&m.sem, &m.thread), WQ_EINVAL);
}

static void a_reset_wakes_all_with_try_again(void)
{
    three_wait();
    keep();
    EQUAL(wq_k_sem_reset(&m.sem, m.out, PLACE), 3);
    CHECK(handed_out(WQ_EAGAIN, IDS(3, 7, 9)));
    numbers(0, 2, 0);
}

static void a_reset_of_a_full_queue(void)
{
    uint32_t ids[WQ_MAX_WAITERS];
    const size_t count = all_in_order(ids);
    all_wait();
    EQUAL(wq_k_sem_reset(&m.sem, m.out, PLACE), WQ_MAX_WAITERS);
    CHECK(handed_out(WQ_EAGAIN, ids, count));
}

static void a_reset_with_nobody_waiting(void)
{
    made(2, 3);
    keep();
    EQUAL(wq_k_sem_reset(&m.sem, m.out, 0), 0);
    CHECK(handed_out(0, NULL, 0));
    numbers(0, 3, 0);
}

static void a_reset_into_a_place_that_just_fits(void)
{
    three_wait();
    keep();
    EQUAL(wq_k_sem_reset(&m.sem, m.out, 3), 3);
    CHECK(handed_out(WQ_EAGAIN, IDS(3, 7, 9)));
}

static void a_reset_into_a_place_that_is_too_short(void)
{
    three_wait();
    REFUSED(wq_k_sem_reset(&m.sem, m.out, 2), WQ_EINVAL);
    REFUSED(wq_k_sem_reset(&m.sem, m.out, 0), WQ_EINVAL);
}

static void a_thread_whose_time_is_over_leaves(void)
{
    three_wait();
    EQUAL(wq_k_sem_remove(&m.sem, 7), WQ_OK);
    QUEUE(3, 9);
    EQUAL(wq_k_sem_remove(&m.sem, 9), WQ_OK);
    QUEUE(3);
    REFUSED(wq_k_sem_remove(&m.sem, 9), WQ_ENOENT);
    EQUAL(wq_k_sem_remove(&m.sem, 3), WQ_OK);
    numbers(0, 2, 0);
    EQUAL(wq_k_sem_give(&m.sem, &m.who), WQ_GIVE_INCREMENTED);
}

static void with_head(uint32_t count, uint32_t limit, uint32_t waiters)
{
    m.sem.head[COUNT] = count;
    m.sem.head[LIMIT] = limit;
    m.sem.head[LEN] = waiters;
}

static void decide_functions_agree(void)
{
    m.sem.entry[0] = entry_of(5, 7);
    for (uint32_t count = 0; count < 4; count++) {
        for (uint32_t limit = 0; limit < 4; limit++) {
            for (uint32_t waiters = 0; waiters < 2; waiters++) {
                with_head(count, limit, waiters);
                const int32_t give = wq_k_sem_give(&m.sem, &m.who);
                EQUAL(wq_sem_give_decide(count, limit, waiters == 1), give);
                if (give == WQ_EINVAL)
                    continue;
                with_head(count, limit, waiters);
                EQUAL(wq_sem_take_decide(count, true), wq_k_sem_try_take(&m.sem));
                with_head(count, limit, waiters);
                EQUAL(wq_sem_take_decide(count, false), wq_k_sem_take(&m.sem, running(8, 5)));
                m.sem.entry[0] = entry_of(5, 7);
            }
        }
    }
}

static void decisions(void)
{
    EQUAL(wq_sem_give_decide(0, 2, true), WQ_GIVE_WOKE);
    EQUAL(wq_sem_give_decide(1, 2, false), WQ_GIVE_INCREMENTED);
    EQUAL(wq_sem_give_decide(2, 2, false), WQ_GIVE_SATURATED);
    EQUAL(wq_sem_give_decide(UINT32_MAX, UINT32_MAX, false), WQ_GIVE_SATURATED);
    EQUAL(wq_sem_give_decide(0, 0, false), WQ_EINVAL);
    EQUAL(wq_sem_give_decide(3, 2, false), WQ_EINVAL);
    EQUAL(wq_sem_give_decide(1, 2, true), WQ_EINVAL);
    EQUAL(wq_sem_take_decide(1, true), WQ_OK);
    EQUAL(wq_sem_take_decide(UINT32_MAX, false), WQ_OK);
    EQUAL(wq_sem_take_decide(0, true), WQ_EBUSY);
    EQUAL(wq_sem_take_decide(0, false), WQ_WAITS);
}

static void malformed_headers_are_refused(void)
{
    static const uint32_t bad[][3] = {
        {0, 0, 0},          {0, 0, 1},           {3, 2, 0},
        {1, 2, 1},          {2, 2, 3},           {0, 2, WQ_MAX_WAITERS + 1},
        {0, 2, UINT32_MAX}, {UINT32_MAX, 1, 0},  {UINT32_MAX, UINT32_MAX, UINT32_MAX},
    };
    all_wait();
    running(WQ_MAX_WAITERS, 5);
    for (size_t i = 0; i < sizeof bad / sizeof bad[0]; i++) {
        with_head(bad[i][COUNT], bad[i][LIMIT], bad[i][LEN]);
        REFUSED(wq_k_sem_give(&m.sem, &m.who), WQ_EINVAL);
        REFUSED(wq_k_sem_try_take(&m.sem), WQ_EINVAL);
        REFUSED(wq_k_sem_take(&m.sem, &m.thread), WQ_EINVAL);
        REFUSED(wq_k_sem_reset(&m.sem, m.out, PLACE), WQ_EINVAL);
        REFUSED(wq_k_sem_count_get(&m.sem), WQ_EINVAL);
        REFUSED(wq_k_sem_limit_get(&m.sem), WQ_EINVAL);
        REFUSED(wq_k_sem_num_waiters(&m.sem), WQ_EINVAL);
        REFUSED(wq_k_sem_audit(&m.sem), false);
        if (bad[i][LEN] > WQ_MAX_WAITERS)
            REFUSED(wq_k_sem_remove(&m.sem, 7), WQ_EINVAL);
    }
}

static void an_audit_changes_nothing(void)
{
    all_wait();
    keep();
    CHECK(wq_k_sem_audit(&m.sem));
    CHECK(stays());
}

static void an_audit_finds_a_bad_queue(void)
{
    for (size_t i = 0; i < BAD_ENTRIES; i++) {
        three_wait();
        m.sem.entry[bad_entries[i].at] = entry_of(bad_entries[i].priority, bad_entries[i].id);
        REFUSED(wq_k_sem_audit(&m.sem), false);
    }
}

bool caller_in_cpp(void);

static void a_caller_in_cpp(void) { CHECK(caller_in_cpp()); }

static const struct test tests[] = {
    TEST(the_worked_run),
    TEST(a_new_semaphore),
    TEST(a_new_semaphore_leaves_its_entries),
    TEST(a_limit_of_0_or_a_count_above_it_is_refused),
    TEST(a_give_counts_up_to_the_limit),
    TEST(a_give_that_wakes_nobody_names_nobody),
    TEST(a_give_wakes_the_first),
    TEST(a_take_without_waiting),
    TEST(a_take_without_waiting_behind_others),
    TEST(a_take_of_what_is_there_does_not_wait),
    TEST(a_take_behind_equal_and_higher),
    TEST(who_waits_here_cannot_take),
    TEST(one_too_many_is_refused),
    TEST(bad_callers_cannot_take),
    TEST(bad_callers_cannot_wait),
    TEST(of_two_refusals_the_first_is_answered),
    TEST(a_reset_wakes_all_with_try_again),
    TEST(a_reset_of_a_full_queue),
    TEST(a_reset_with_nobody_waiting),
    TEST(a_reset_into_a_place_that_just_fits),
    TEST(a_reset_into_a_place_that_is_too_short),
    TEST(a_thread_whose_time_is_over_leaves),
    TEST(decide_functions_agree),
    TEST(decisions),
    TEST(malformed_headers_are_refused),
    TEST(an_audit_changes_nothing),
    TEST(an_audit_finds_a_bad_queue),
    TEST(a_caller_in_cpp),
};

const struct group sem_group = GROUP("sem", tests);
