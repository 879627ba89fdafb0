/* The condition variable.
 *
 * SPDX-License-Identifier: Apache-2.0
 */
#include "check.h"

enum { OWNED, OWNER, LOCKS, LEN }; /* of the mutex */

#define QUEUE(...) CHECK(queue_is(m.condvar.entry, m.condvar.head[0], IDS(__VA_ARGS__)))
#define MUTEX_QUEUE(...) CHECK(queue_is(m.mutex.entry, m.mutex.head[LEN], IDS(__VA_ARGS__)))

static void made(void)
{
    EQUAL(wq_k_condvar_init(&m.condvar), WQ_OK);
    EQUAL(wq_k_mutex_init(&m.mutex), WQ_OK);
    CHECK(wq_k_condvar_audit(&m.condvar));
}

static void waiters(int64_t count)
{
    EQUAL(wq_k_condvar_num_waiters(&m.condvar), count);
    EQUAL(wq_k_condvar_has_waiters(&m.condvar), count > 0);
    CHECK(wq_k_condvar_audit(&m.condvar));
}

/* The owner of the mutex is WQ_ENOENT where nobody is. */
static void mutex_is(int64_t owner, int64_t locks, int64_t count)
{
    EQUAL(wq_k_mutex_owner_get(&m.mutex), owner);
    EQUAL(wq_k_mutex_lock_count_get(&m.mutex), locks);
    EQUAL(wq_k_mutex_num_waiters(&m.mutex), count);
    CHECK(wq_k_mutex_audit(&m.mutex));
}

static void mutex_is_free(void) { mutex_is(WQ_ENOENT, 0, 0); }

static void gets_mutex(uint32_t id) { EQUAL(wq_k_mutex_try_lock(&m.mutex, id), WQ_OK); }

static void waits_for_mutex(uint32_t id, uint32_t priority)
{
    EQUAL(wq_k_mutex_lock(&m.mutex, running(id, priority)), WQ_WAITS);
}

static void wait(uint32_t id, uint32_t priority, int32_t answer)
{
    EQUAL(wq_k_condvar_wait(&m.condvar, &m.mutex, running(id, priority), &m.who), answer);
    EQUAL(m.thread.state, answer > 0 ? WQ_BLOCKED : WQ_RUNNING);
}

/* With a mutex that is free before and after. */
static void waits(uint32_t id, uint32_t priority)
{
    gets_mutex(id);
    wait(id, priority, WQ_WAITS);
    mutex_is_free();
}

static void three_wait(void)
{
    made();
    waits(7, 5);
    waits(3, 2);
    waits(9, 5);
    QUEUE(3, 7, 9);
}

static void all_wait(void)
{
    made();
    for (uint32_t id = 0; id < WQ_MAX_WAITERS; id++)
        waits(id, 31 - id % WQ_MAX_PRIORITY);
}

static void signals(uint32_t id)
{
    EQUAL(wq_k_condvar_signal(&m.condvar, &m.who), 1);
    EQUAL(wq_woken_id(m.who), id);
    EQUAL(wq_woken_result(m.who), WQ_OK);
}

/* Three boxes wait for a cow. The gate lets one in, and the box that is woken gets the mutex once the gate gives it
 * back. Then cows come for both others, and the gate waits itself until a box is empty. */
static void cows_at_the_gate(void)
{
    enum { GATE = 9 };
    static const uint32_t priorities[] = {4, 4, 2};
    struct wq_condvar empty_box;
    struct wq_thread box[3], gate;

    made();
    EQUAL(wq_k_condvar_init(&empty_box), WQ_OK);
    EQUAL(wq_thread_init(&gate, GATE, 1), WQ_OK);
    EQUAL(wq_dispatch(&gate), WQ_OK);
    for (uint32_t i = 0; i < 3; i++) {
        EQUAL(wq_thread_init(&box[i], i, priorities[i]), WQ_OK);
        EQUAL(wq_dispatch(&box[i]), WQ_OK);
        EQUAL(wq_k_mutex_lock(&m.mutex, &box[i]), WQ_OK);
        EQUAL(wq_k_condvar_wait(&m.condvar, &m.mutex, &box[i], &m.who), WQ_WAITS);
        CHECK(wq_thread_is_blocked(box[i].state));
    }
    QUEUE(2, 0, 1);

    EQUAL(wq_k_mutex_lock(&m.mutex, &gate), WQ_OK);
    signals(2);
    EQUAL(wq_wake(&box[2], wq_woken_result(m.who)), WQ_OK);
    EQUAL(wq_dispatch(&box[2]), WQ_OK);
    EQUAL(wq_k_mutex_lock(&m.mutex, &box[2]), WQ_WAITS);
    EQUAL(wq_k_mutex_unlock(&m.mutex, GATE, &m.who), WQ_UNLOCK_TRANSFERRED);
    EQUAL(wq_woken_id(m.who), 2);
    mutex_is(2, 1, 0);
    EQUAL(wq_k_mutex_unlock(&m.mutex, 2, &m.who), WQ_UNLOCK_UNLOCKED);

    EQUAL(wq_k_mutex_lock(&m.mutex, &gate), WQ_OK);
    keep();
    EQUAL(wq_k_condvar_broadcast(&m.condvar, m.out, PLACE), 2);
    CHECK(handed_out(WQ_OK, IDS(0, 1)));
    for (int i = 0; i < 2; i++) {
        struct wq_thread *t = &box[wq_woken_id(m.out[i])];
        EQUAL(wq_wake(t, wq_woken_result(m.out[i])), WQ_OK);
        EQUAL(wq_dispatch(t), WQ_OK);
        EQUAL(wq_k_mutex_lock(&m.mutex, t), WQ_WAITS);
    }
    EQUAL(wq_k_condvar_wait(&empty_box, &m.mutex, &gate, &m.who), WQ_UNLOCK_TRANSFERRED);
    EQUAL(wq_woken_id(m.who), 0);
    CHECK(wq_thread_is_blocked(gate.state));
    mutex_is(0, 1, 1);
    EQUAL(wq_k_condvar_num_waiters(&empty_box), 1);
    waiters(0);

    EQUAL(wq_k_condvar_signal(&empty_box, &m.who), 1);
    EQUAL(wq_woken_id(m.who), GATE);
    EQUAL(wq_wake(&gate, wq_woken_result(m.who)), WQ_OK);
    EQUAL(gate.return_value, WQ_OK);
    EQUAL(wq_k_mutex_unlock(&m.mutex, 0, &m.who), WQ_UNLOCK_TRANSFERRED);
    EQUAL(wq_k_mutex_unlock(&m.mutex, 1, &m.who), WQ_UNLOCK_UNLOCKED);
    mutex_is_free();
}

static void for_a_new_one_nobody_waits(void)
{
    keep();
    EQUAL(wq_k_condvar_init(&m.condvar), WQ_OK);
    waiters(0);
    ALLOW(m.condvar.head);
    CHECK(stays());
}

static void a_signal_wakes_the_first(void)
{
    three_wait();
    keep();
    signals(3);
    QUEUE(7, 9);
    ALLOW(m.condvar.head);
    ALLOW(m.who);
    CHECK(stays());
    waiters(2);
    signals(7);
    signals(9);
    waiters(0);
}

static void a_signal_that_wakes_nobody_names_nobody(void)
{
    made();
    keep();
    EQUAL(wq_k_condvar_signal(&m.condvar, &m.who), 0);
    CHECK(stays());
}

static void a_full_queue_is_signalled_in_order(void)
{
    uint32_t ids[WQ_MAX_WAITERS];
    const size_t count = all_in_order(ids);
    all_wait();
    for (size_t i = 0; i < count; i++) {
        signals(ids[i]);
        waiters((int64_t)(count - 1 - i));
    }
    EQUAL(wq_k_condvar_signal(&m.condvar, &m.who), 0);
}

static void a_broadcast_wakes_all(void)
{
    three_wait();
    keep();
    EQUAL(wq_k_condvar_broadcast(&m.condvar, m.out, PLACE), 3);
    CHECK(handed_out(WQ_OK, IDS(3, 7, 9)));
    waiters(0);
    ALLOW(m.condvar.head);
    ALLOW(m.out);
    CHECK(stays());
}

static void a_broadcast_to_a_full_queue(void)
{
    uint32_t ids[WQ_MAX_WAITERS];
    const size_t count = all_in_order(ids);
    all_wait();
    keep();
    EQUAL(wq_k_condvar_broadcast(&m.condvar, m.out, WQ_MAX_WAITERS), WQ_MAX_WAITERS);
    CHECK(handed_out(WQ_OK, ids, count));
    waiters(0);
}

static void a_broadcast_to_nobody(void)
{
    made();
    keep();
    EQUAL(wq_k_condvar_broadcast(&m.condvar, m.out, 0), 0);
    EQUAL(wq_k_condvar_broadcast(&m.condvar, m.out, PLACE), 0);
    CHECK(stays());
}

static void a_broadcast_into_a_place_that_just_fits(void)
{
    three_wait();
    keep();
    EQUAL(wq_k_condvar_broadcast(&m.condvar, m.out, 3), 3);
    CHECK(handed_out(WQ_OK, IDS(3, 7, 9)));
}

static void a_broadcast_into_a_place_that_is_too_short(void)
{
    three_wait();
    REFUSED(wq_k_condvar_broadcast(&m.condvar, m.out, 2), WQ_EINVAL);
    REFUSED(wq_k_condvar_broadcast(&m.condvar, m.out, 0), WQ_EINVAL);
    all_wait();
    REFUSED(wq_k_condvar_broadcast(&m.condvar, m.out, WQ_MAX_WAITERS - 1), WQ_EINVAL);
}

static void a_wait_frees_the_mutex(void)
{
    made();
    gets_mutex(7);
    m.thread = (struct wq_thread){7, 5, WQ_RUNNING, 3};
    keep();
    EQUAL(wq_k_condvar_wait(&m.condvar, &m.mutex, &m.thread, &m.who), WQ_WAITS);
    EQUAL(m.thread.state, WQ_BLOCKED);
    QUEUE(7);
    mutex_is_free();
    ALLOW(m.thread.state);
    ALLOW(m.mutex.head);
    ALLOW(m.condvar.head);
    ALLOW(m.condvar.entry[0]);
    CHECK(stays());
}

static void a_wait_hands_the_mutex_to_its_first(void)
{
    three_wait();
    gets_mutex(8);
    waits_for_mutex(5, 30);
    waits_for_mutex(6, 10);
    waits_for_mutex(4, 10);
    m.thread = (struct wq_thread){8, 31, WQ_RUNNING, 3};
    keep();
    EQUAL(wq_k_condvar_wait(&m.condvar, &m.mutex, &m.thread, &m.who), WQ_UNLOCK_TRANSFERRED);
    EQUAL(wq_woken_id(m.who), 6);
    EQUAL(wq_woken_result(m.who), WQ_OK);
    EQUAL(m.thread.state, WQ_BLOCKED);
    QUEUE(3, 7, 9, 8);
    MUTEX_QUEUE(4, 5);
    mutex_is(6, 1, 2);
    ALLOW(m.thread.state);
    ALLOW(m.who);
    ALLOW(m.mutex.head);
    ALLOW(m.condvar.head);
    ALLOW(m.condvar.entry);
    CHECK(stays());

    wait(6, 0, WQ_UNLOCK_TRANSFERRED);
    EQUAL(wq_woken_id(m.who), 4);
    QUEUE(6, 3, 7, 9, 8);
    wait(4, 5, WQ_UNLOCK_TRANSFERRED);
    EQUAL(wq_woken_id(m.who), 5);
    wait(5, 5, WQ_WAITS);
    QUEUE(6, 3, 7, 9, 4, 5, 8);
    mutex_is_free();
}

static void a_wait_hands_over_from_a_full_queue(void)
{
    made();
    gets_mutex(100);
    for (uint32_t id = 0; id < WQ_MAX_WAITERS; id++)
        waits_for_mutex(id, 5);
    wait(100, 5, WQ_UNLOCK_TRANSFERRED);
    EQUAL(wq_woken_id(m.who), 0);
    mutex_is(0, 1, WQ_MAX_WAITERS - 1);
    QUEUE(100);
}

static void a_thread_waits_behind_equal_and_higher(void)
{
    three_wait();
    waits(1, 31);
    waits(2, 0);
    waits(5, 2);
    waits(6, 5);
    QUEUE(2, 3, 5, 7, 9, 6, 1);
    waiters(7);
}

static void an_entry_is_priority_and_id(void)
{
    made();
    waits(UINT32_MAX, 31);
    waits(0, 0);
    CHECK(m.condvar.entry[0] == entry_of(31, UINT32_MAX));
    CHECK(m.condvar.entry[1] == 0);
}

static void any_word_but_0_is_an_owned_mutex(void)
{
    made();
    gets_mutex(7);
    m.mutex.head[OWNED] = 1u << 31;
    wait(7, 5, WQ_WAITS);
    mutex_is_free();
    gets_mutex(8);
    m.mutex.head[OWNED] = UINT32_MAX;
    waits_for_mutex(9, 5);
    wait(8, 5, WQ_UNLOCK_TRANSFERRED);
    mutex_is(9, 1, 0);
}

/* Both objects, the thread and *who stay. */
static void refused(uint32_t id, uint32_t priority, uint32_t state, int32_t code)
{
    m.thread = (struct wq_thread){id, priority, state, 0};
    REFUSED(wq_k_condvar_wait(&m.condvar, &m.mutex, &m.thread, &m.who), code);
}

static void with_mutex(uint32_t owned, uint32_t owner, uint32_t locks, uint32_t count)
{
    m.mutex.head[OWNED] = owned;
    m.mutex.head[OWNER] = owner;
    m.mutex.head[LOCKS] = locks;
    m.mutex.head[LEN] = count;
}

/* 8 has the mutex, 5 and 6 wait for it. */
static void three_wait_and_8_could(void)
{
    three_wait();
    gets_mutex(8);
    waits_for_mutex(5, 5);
    waits_for_mutex(6, 5);
}

static void a_wait_with_a_malformed_mutex(void)
{
    three_wait_and_8_could();
    for (size_t i = 0; i < MALFORMED_MUTEXES; i++) {
        const uint32_t *bad = malformed_mutexes[i];
        with_mutex(bad[OWNED], bad[OWNER], bad[LOCKS], bad[LEN]);
        refused(4, 5, WQ_RUNNING, WQ_EINVAL);
        refused(4, 5, WQ_BLOCKED, WQ_EINVAL);
        refused(10, 5, WQ_RUNNING, WQ_EINVAL);
        refused(7, 5, WQ_RUNNING, WQ_EINVAL);
    }
}

static void bad_callers_are_refused(uint32_t id)
{
    for (size_t i = 0; i < BAD_CALLERS; i++)
        refused(id, bad_callers[i].priority, bad_callers[i].state, bad_callers[i].code);
}

/* They are told so whatever else is wrong, but for a malformed mutex: nobody owns it, another does, it is locked more
 * than once, the condition variable is malformed, the thread waits there, it is full. */
static void bad_callers_cannot_wait(void)
{
    three_wait_and_8_could();
    bad_callers_are_refused(8);
    bad_callers_are_refused(10);
    with_mutex(0, 8, 0, 0);
    bad_callers_are_refused(8);
    with_mutex(1, 8, 2, 2);
    bad_callers_are_refused(8);
    with_mutex(1, 7, 1, 2);
    bad_callers_are_refused(7);
    m.condvar.head[0] = WQ_MAX_WAITERS + 1;
    bad_callers_are_refused(7);
    all_wait();
    gets_mutex(100);
    bad_callers_are_refused(100);
}

static void a_wait_without_the_mutex(void)
{
    three_wait();
    refused(8, 5, WQ_RUNNING, WQ_EINVAL);
    with_mutex(0, 8, 0, 0);
    refused(8, 5, WQ_RUNNING, WQ_EINVAL);
    refused(7, 5, WQ_RUNNING, WQ_EINVAL);
    all_wait();
    refused(100, 5, WQ_RUNNING, WQ_EINVAL);
    refused(7, 5, WQ_RUNNING, WQ_EINVAL);
}

static void a_wait_with_the_mutex_of_another(void)
{
    three_wait_and_8_could();
    refused(10, 5, WQ_RUNNING, WQ_EPERM);
    refused(5, 5, WQ_RUNNING, WQ_EPERM);
    refused(7, 5, WQ_RUNNING, WQ_EPERM);
    gets_mutex(8);
    refused(10, 5, WQ_RUNNING, WQ_EPERM);
    m.condvar.head[0] = WQ_MAX_WAITERS + 1;
    refused(10, 5, WQ_RUNNING, WQ_EPERM);
    all_wait();
    gets_mutex(8);
    refused(100, 5, WQ_RUNNING, WQ_EPERM);
    refused(7, 5, WQ_RUNNING, WQ_EPERM);
}

/* It would keep the mutex, so that nobody could come to signal. */
static void a_wait_with_a_mutex_that_is_locked_more_than_once(void)
{
    three_wait_and_8_could();
    gets_mutex(8);
    refused(8, 5, WQ_RUNNING, WQ_EDEADLK);
    with_mutex(1, 8, UINT32_MAX, 2);
    refused(8, 5, WQ_RUNNING, WQ_EDEADLK);
    with_mutex(1, 8, 2, 0);
    refused(8, 5, WQ_RUNNING, WQ_EDEADLK);
    m.condvar.head[0] = WQ_MAX_WAITERS + 1;
    refused(8, 5, WQ_RUNNING, WQ_EDEADLK);
    all_wait();
    with_mutex(1, 100, 2, 0);
    refused(100, 5, WQ_RUNNING, WQ_EDEADLK);
    with_mutex(1, 7, 2, 0);
    refused(7, 5, WQ_RUNNING, WQ_EDEADLK);
}

static void a_wait_at_a_malformed_one(void)
{
    all_wait();
    for (size_t i = 0; i < TOO_LONG; i++) {
        m.condvar.head[0] = too_long[i];
        with_mutex(1, 100, 1, 0);
        refused(100, 5, WQ_RUNNING, WQ_EINVAL);
        with_mutex(1, 7, 1, 0);
        refused(7, 5, WQ_RUNNING, WQ_EINVAL);
    }
}

static void who_waits_here_cannot_wait_twice(void)
{
    static const uint32_t ids[] = {3, 7, 9};
    three_wait();
    for (int i = 0; i < 3; i++) {
        with_mutex(1, ids[i], 1, 0);
        refused(ids[i], 0, WQ_RUNNING, WQ_EBUSY);
    }
    all_wait();
    gets_mutex(7);
    refused(7, 5, WQ_RUNNING, WQ_EBUSY);
    waits_for_mutex(100, 5);
    refused(7, 5, WQ_RUNNING, WQ_EBUSY);
}

static void one_too_many_is_refused(void)
{
    all_wait();
    waiters(WQ_MAX_WAITERS);
    gets_mutex(100);
    refused(100, 0, WQ_RUNNING, WQ_ENOMEM);
    waits_for_mutex(101, 5);
    refused(100, 0, WQ_RUNNING, WQ_ENOMEM);
    mutex_is(100, 1, 1);
    signals(31);
    wait(100, 0, WQ_UNLOCK_TRANSFERRED);
    waiters(WQ_MAX_WAITERS);
    mutex_is(101, 1, 0);
}

static void a_thread_whose_time_is_over_leaves(void)
{
    three_wait();
    EQUAL(wq_k_condvar_remove(&m.condvar, 7), WQ_OK);
    QUEUE(3, 9);
    REFUSED(wq_k_condvar_remove(&m.condvar, 7), WQ_ENOENT);
    EQUAL(wq_k_condvar_remove(&m.condvar, 3), WQ_OK);
    waits(7, 5);
    QUEUE(9, 7);
    EQUAL(wq_k_condvar_remove(&m.condvar, 7), WQ_OK);
    EQUAL(wq_k_condvar_remove(&m.condvar, 9), WQ_OK);
    waiters(0);
}

static void entries_behind_the_queue_stay(void)
{
    three_wait();
    signals(3);
    waits(1, 31);
    EQUAL(wq_k_condvar_broadcast(&m.condvar, m.out, PLACE), 3);
    for (const unsigned char *p = (unsigned char *)&m.condvar.entry[3]; p < (unsigned char *)(&m.condvar + 1); p++)
        EQUAL(*p, FILL);
}

static void a_length_above_the_limit_is_refused(void)
{
    all_wait();
    for (size_t i = 0; i < TOO_LONG; i++) {
        m.condvar.head[0] = too_long[i];
        REFUSED(wq_k_condvar_signal(&m.condvar, &m.who), WQ_EINVAL);
        REFUSED(wq_k_condvar_broadcast(&m.condvar, m.out, PLACE), WQ_EINVAL);
        REFUSED(wq_k_condvar_num_waiters(&m.condvar), WQ_EINVAL);
        REFUSED(wq_k_condvar_has_waiters(&m.condvar), WQ_EINVAL);
        REFUSED(wq_k_condvar_remove(&m.condvar, 7), WQ_EINVAL);
        REFUSED(wq_k_condvar_audit(&m.condvar), false);
    }
}

static void an_audit_changes_nothing(void)
{
    all_wait();
    keep();
    CHECK(wq_k_condvar_audit(&m.condvar));
    CHECK(stays());
}

static void an_audit_finds_a_bad_queue(void)
{
    for (size_t i = 0; i < BAD_ENTRIES; i++) {
        three_wait();
        m.condvar.entry[bad_entries[i].at] = entry_of(bad_entries[i].priority, bad_entries[i].id);
        REFUSED(wq_k_condvar_audit(&m.condvar), false);
    }
}

/* What is behind the entries would continue the queue. */
static void an_audit_does_not_look_behind_the_entries(void)
{
    struct {
        struct wq_condvar condvar;
        uint64_t behind;
    } place;
    all_wait();
    place.condvar = m.condvar;
    place.behind = entry_of(0, 100);
    CHECK(wq_k_condvar_audit(&place.condvar));
    place.condvar.head[0] = WQ_MAX_WAITERS + 1;
    CHECK(!wq_k_condvar_audit(&place.condvar));
}

static void decisions(void)
{
    EQUAL(wq_condvar_signal_decide(true), 1);
    EQUAL(wq_condvar_signal_decide(false), 0);
    for (uint32_t n = 0; n <= WQ_MAX_WAITERS; n++)
        EQUAL(wq_condvar_broadcast_decide(n), n);
    EQUAL(wq_condvar_broadcast_decide(WQ_MAX_WAITERS + 1), WQ_EINVAL);
    EQUAL(wq_condvar_broadcast_decide(1u << 31), WQ_EINVAL);
    EQUAL(wq_condvar_broadcast_decide(UINT32_MAX), WQ_EINVAL);
    EQUAL(wq_condvar_wait_decide(true), WQ_EAGAIN);
    EQUAL(wq_condvar_wait_decide(false), WQ_WAITS);
}

static void decide_functions_agree(void)
{
    all_wait();
    for (uint32_t n = 0; n <= WQ_MAX_WAITERS + 1; n++) {
        m.condvar.head[0] = n;
        EQUAL(wq_k_condvar_broadcast(&m.condvar, m.out, PLACE), wq_condvar_broadcast_decide(n));
        if (n > WQ_MAX_WAITERS)
            continue;
        m.condvar.head[0] = n;
        EQUAL(wq_k_condvar_signal(&m.condvar, &m.who), wq_condvar_signal_decide(n > 0));
    }
}

static const struct test tests[] = {
    TEST(cows_at_the_gate),
    TEST(for_a_new_one_nobody_waits),
    TEST(a_signal_wakes_the_first),
    TEST(a_signal_that_wakes_nobody_names_nobody),
    TEST(a_full_queue_is_signalled_in_order),
    TEST(a_broadcast_wakes_all),
    TEST(a_broadcast_to_a_full_queue),
    TEST(a_broadcast_to_nobody),
    TEST(a_broadcast_into_a_place_that_just_fits),
    TEST(a_broadcast_into_a_place_that_is_too_short),
    TEST(a_wait_frees_the_mutex),
    TEST(a_wait_hands_the_mutex_to_its_first),
    TEST(a_wait_hands_over_from_a_full_queue),
    TEST(a_thread_waits_behind_equal_and_higher),
    TEST(an_entry_is_priority_and_id),
    TEST(any_word_but_0_is_an_owned_mutex),
    TEST(a_wait_with_a_malformed_mutex),
    TEST(bad_callers_cannot_wait),
    TEST(a_wait_without_the_mutex),
    TEST(a_wait_with_the_mutex_of_another),
    TEST(a_wait_with_a_mutex_that_is_locked_more_than_once),
    TEST(a_wait_at_a_malformed_one),
    TEST(who_waits_here_cannot_wait_twice),
    TEST(one_too_many_is_refused),
    TEST(a_thread_whose_time_is_over_leaves),
    TEST(entries_behind_the_queue_stay),
    TEST(a_length_above_the_limit_is_refused),
    TEST(an_audit_changes_nothing),
    TEST(an_audit_finds_a_bad_queue),
    TEST(an_audit_does_not_look_behind_the_entries),
    TEST(decisions),
    TEST(decide_functions_agree),
};

const struct group condvar_group = GROUP("condvar", tests);
