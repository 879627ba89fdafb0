/* The mutex.
 *
 * SPDX-License-Identifier: Apache-2.0
 */
#include "check.h"

enum { OWNED, OWNER, LOCKS, LEN };

#define QUEUE(...) CHECK(queue_is(m.mutex.entry, m.mutex.head[LEN], IDS(__VA_ARGS__)))

static void made(void)
{
    EQUAL(wq_k_mutex_init(&m.mutex), WQ_OK);
    CHECK(wq_k_mutex_audit(&m.mutex));
}

/* The owner is WQ_ENOENT where nobody is. */
static void numbers(int64_t owner, int64_t locks, int64_t waiters)
{
    EQUAL(wq_k_mutex_is_locked(&m.mutex), owner >= 0);
    EQUAL(wq_k_mutex_owner_get(&m.mutex), owner);
    EQUAL(wq_k_mutex_lock_count_get(&m.mutex), locks);
    EQUAL(wq_k_mutex_num_waiters(&m.mutex), waiters);
    CHECK(wq_k_mutex_audit(&m.mutex));
}

static void is_free(void) { numbers(WQ_ENOENT, 0, 0); }

static void lock(uint32_t id, uint32_t priority, int32_t answer)
{
    EQUAL(wq_k_mutex_lock(&m.mutex, running(id, priority)), answer);
    EQUAL(m.thread.state, answer == WQ_WAITS ? WQ_BLOCKED : WQ_RUNNING);
}

static void hands_over(uint32_t from, uint32_t to, int64_t waiters)
{
    EQUAL(wq_k_mutex_unlock(&m.mutex, from, &m.who), WQ_UNLOCK_TRANSFERRED);
    EQUAL(wq_woken_id(m.who), to);
    EQUAL(wq_woken_result(m.who), WQ_OK);
    numbers(to, 1, waiters);
}

/* 4 owns it. */
static void three_wait(void)
{
    made();
    lock(4, 20, WQ_OK);
    lock(7, 5, WQ_WAITS);
    lock(3, 2, WQ_WAITS);
    lock(9, 5, WQ_WAITS);
    QUEUE(3, 7, 9);
}

/* WQ_MAX_WAITERS owns it. */
static void all_wait(void)
{
    made();
    lock(WQ_MAX_WAITERS, 0, WQ_OK);
    for (uint32_t id = 0; id < WQ_MAX_WAITERS; id++)
        lock(id, 31 - id % WQ_MAX_PRIORITY, WQ_WAITS);
}

static void with_head(uint32_t owned, uint32_t owner, uint32_t locks, uint32_t waiters)
{
    m.mutex.head[OWNED] = owned;
    m.mutex.head[OWNER] = owner;
    m.mutex.head[LOCKS] = locks;
    m.mutex.head[LEN] = waiters;
}

/* Milking has the arm of the robot, and locks it once more to move a cup. Washing waits for the arm. The guard, which
 * draws it back when the cow kicks, comes later and gets it earlier. */
static void the_arm_of_a_milking_robot(void)
{
    enum { MILKING, WASHING, GUARD };
    static const uint32_t ids[] = {1, 2, 3}, priorities[] = {10, 20, 0};
    struct wq_thread t[3];

    made();
    for (int i = 0; i < 3; i++) {
        EQUAL(wq_thread_init(&t[i], ids[i], priorities[i]), WQ_OK);
        EQUAL(wq_dispatch(&t[i]), WQ_OK);
    }
    EQUAL(wq_k_mutex_lock(&m.mutex, &t[MILKING]), WQ_OK);
    EQUAL(wq_k_mutex_lock(&m.mutex, &t[WASHING]), WQ_WAITS);
    EQUAL(wq_k_mutex_lock(&m.mutex, &t[MILKING]), WQ_OK);
    EQUAL(wq_k_mutex_try_lock(&m.mutex, 3), WQ_EBUSY);
    EQUAL(wq_k_mutex_lock(&m.mutex, &t[GUARD]), WQ_WAITS);
    EQUAL(t[MILKING].state, WQ_RUNNING);
    CHECK(wq_thread_is_blocked(t[WASHING].state) && wq_thread_is_blocked(t[GUARD].state));
    QUEUE(3, 2);
    numbers(1, 2, 2);

    EQUAL(wq_k_mutex_unlock(&m.mutex, 1, &m.who), WQ_UNLOCK_RELEASED);
    numbers(1, 1, 2);
    hands_over(1, 3, 1);
    EQUAL(wq_wake(&t[GUARD], wq_woken_result(m.who)), WQ_OK);
    EQUAL(t[GUARD].state, WQ_READY);
    EQUAL(t[GUARD].return_value, WQ_OK);
    REFUSED(wq_k_mutex_unlock(&m.mutex, 1, &m.who), WQ_EPERM);
    EQUAL(wq_k_mutex_lock(&m.mutex, &t[MILKING]), WQ_WAITS);
    QUEUE(1, 2);

    hands_over(3, 1, 1);
    EQUAL(wq_wake(&t[MILKING], wq_woken_result(m.who)), WQ_OK);
    hands_over(1, 2, 0);
    EQUAL(wq_wake(&t[WASHING], wq_woken_result(m.who)), WQ_OK);
    EQUAL(wq_k_mutex_unlock(&m.mutex, 2, &m.who), WQ_UNLOCK_UNLOCKED);
    is_free();
}

static void a_new_mutex_is_free(void)
{
    keep();
    made();
    is_free();
    ALLOW(m.mutex.head);
    CHECK(stays());
}

static void a_free_mutex_is_taken(void)
{
    static const uint32_t ids[] = {0, 7, 1u << 31, UINT32_MAX};
    for (size_t i = 0; i < sizeof ids / sizeof ids[0]; i++) {
        made();
        keep();
        EQUAL(wq_k_mutex_try_lock(&m.mutex, ids[i]), WQ_OK);
        numbers(ids[i], 1, 0);
        ALLOW(m.mutex.head);
        CHECK(stays());

        made();
        running(ids[i], 31);
        keep();
        EQUAL(wq_k_mutex_lock(&m.mutex, &m.thread), WQ_OK);
        numbers(ids[i], 1, 0);
        ALLOW(m.mutex.head);
        CHECK(stays());
    }
}

/* The owner word means nothing then, whatever it is. */
static void of_a_free_mutex_nobody_is_owner(void)
{
    with_head(0, 7, 0, 0);
    is_free();
    REFUSED(wq_k_mutex_unlock(&m.mutex, 7, &m.who), WQ_EINVAL);
    EQUAL(wq_k_mutex_try_lock(&m.mutex, 7), WQ_OK);
    numbers(7, 1, 0);
    with_head(0, 7, 0, 0);
    lock(8, 5, WQ_OK);
    numbers(8, 1, 0);
}

static void any_word_but_0_is_owned(void)
{
    static const uint32_t words[] = {1, 2, WQ_MAX_WAITERS, 256, 1u << 31, UINT32_MAX};
    for (size_t i = 0; i < sizeof words / sizeof words[0]; i++) {
        with_head(words[i], 4, 2, 0);
        numbers(4, 2, 0);
        REFUSED(wq_k_mutex_try_lock(&m.mutex, 7), WQ_EBUSY);
        EQUAL(wq_k_mutex_try_lock(&m.mutex, 4), WQ_OK);
        lock(4, 5, WQ_OK);
        lock(7, 5, WQ_WAITS);
        numbers(4, 4, 1);
        EQUAL(wq_k_mutex_unlock(&m.mutex, 4, &m.who), WQ_UNLOCK_RELEASED);
        m.mutex.head[LOCKS] = 1;
        hands_over(4, 7, 0);
        EQUAL(wq_k_mutex_unlock(&m.mutex, 7, &m.who), WQ_UNLOCK_UNLOCKED);
        is_free();
    }
}

static void the_owner_locks_again(void)
{
    three_wait();
    keep();
    EQUAL(wq_k_mutex_try_lock(&m.mutex, 4), WQ_OK);
    EQUAL(m.mutex.head[LOCKS], 2);
    ALLOW(m.mutex.head[LOCKS]);
    CHECK(stays());

    running(4, 31);
    keep();
    EQUAL(wq_k_mutex_lock(&m.mutex, &m.thread), WQ_OK);
    EQUAL(m.mutex.head[LOCKS], 3);
    ALLOW(m.mutex.head[LOCKS]);
    CHECK(stays());
    numbers(4, 3, 3);
}

static void the_last_lock_that_can_be_counted(void)
{
    for (uint32_t waiters = 0; waiters <= 3; waiters += 3) {
        three_wait();
        with_head(1, 4, UINT32_MAX - 1, waiters);
        EQUAL(wq_k_mutex_try_lock(&m.mutex, 4), WQ_OK);
        numbers(4, UINT32_MAX, waiters);
        m.mutex.head[LOCKS] = UINT32_MAX - 1;
        lock(4, 5, WQ_OK);
        numbers(4, UINT32_MAX, waiters);

        REFUSED(wq_k_mutex_try_lock(&m.mutex, 4), WQ_EOVERFLOW);
        running(4, 5);
        REFUSED(wq_k_mutex_lock(&m.mutex, &m.thread), WQ_EOVERFLOW);
        REFUSED(wq_k_mutex_try_lock(&m.mutex, 8), WQ_EBUSY);
        EQUAL(wq_k_mutex_unlock(&m.mutex, 4, &m.who), WQ_UNLOCK_RELEASED);
        numbers(4, UINT32_MAX - 1, waiters);
    }
}

static void what_another_has_cannot_be_had_at_once(void)
{
    made();
    lock(4, 20, WQ_OK);
    REFUSED(wq_k_mutex_try_lock(&m.mutex, 7), WQ_EBUSY);
    three_wait();
    REFUSED(wq_k_mutex_try_lock(&m.mutex, 8), WQ_EBUSY);
    REFUSED(wq_k_mutex_try_lock(&m.mutex, 3), WQ_EBUSY);
    all_wait();
    REFUSED(wq_k_mutex_try_lock(&m.mutex, 100), WQ_EBUSY);
}

static void a_thread_waits_behind_equal_and_higher(void)
{
    three_wait();
    lock(1, 31, WQ_WAITS);
    lock(2, 0, WQ_WAITS);
    lock(5, 2, WQ_WAITS);
    lock(6, 5, WQ_WAITS);
    QUEUE(2, 3, 5, 7, 9, 6, 1);
    numbers(4, 1, 7);
}

static void an_entry_is_priority_and_id(void)
{
    made();
    lock(4, 20, WQ_OK);
    lock(UINT32_MAX, 31, WQ_WAITS);
    lock(0, 0, WQ_WAITS);
    CHECK(m.mutex.entry[0] == entry_of(31, UINT32_MAX));
    CHECK(m.mutex.entry[1] == 0);
}

static void who_waits_is_blocked_and_nothing_else(void)
{
    made();
    lock(4, 20, WQ_OK);
    m.thread = (struct wq_thread){7, 5, WQ_RUNNING, 3};
    keep();
    EQUAL(wq_k_mutex_lock(&m.mutex, &m.thread), WQ_WAITS);
    EQUAL(m.thread.state, WQ_BLOCKED);
    EQUAL(m.mutex.head[LEN], 1);
    ALLOW(m.thread.state);
    ALLOW(m.mutex.head[LEN]);
    ALLOW(m.mutex.entry[0]);
    CHECK(stays());
}

static void a_nested_unlock_keeps_it(void)
{
    three_wait();
    lock(4, 20, WQ_OK);
    lock(4, 20, WQ_OK);
    for (uint32_t locks = 2; locks > 0; locks--) {
        keep();
        EQUAL(wq_k_mutex_unlock(&m.mutex, 4, &m.who), WQ_UNLOCK_RELEASED);
        EQUAL(m.mutex.head[LOCKS], locks);
        ALLOW(m.mutex.head[LOCKS]);
        CHECK(stays());
    }
    hands_over(4, 3, 2);
}

static void the_last_unlock_frees_it(void)
{
    made();
    lock(4, 20, WQ_OK);
    keep();
    EQUAL(wq_k_mutex_unlock(&m.mutex, 4, &m.who), WQ_UNLOCK_UNLOCKED);
    is_free();
    ALLOW(m.mutex.head);
    CHECK(stays());
}

static void the_last_unlock_hands_it_to_the_first(void)
{
    three_wait();
    keep();
    hands_over(4, 3, 2);
    QUEUE(7, 9);
    ALLOW(m.mutex.head);
    ALLOW(m.who);
    CHECK(stays());
    hands_over(3, 7, 1);
    QUEUE(9);
    hands_over(7, 9, 0);
    EQUAL(wq_k_mutex_unlock(&m.mutex, 9, &m.who), WQ_UNLOCK_UNLOCKED);
    is_free();
}

static void who_was_handed_it_owns_it(void)
{
    three_wait();
    hands_over(4, 3, 2);
    EQUAL(wq_k_mutex_try_lock(&m.mutex, 3), WQ_OK);
    numbers(3, 2, 2);
    REFUSED(wq_k_mutex_try_lock(&m.mutex, 4), WQ_EBUSY);
    lock(4, 5, WQ_WAITS);
    QUEUE(7, 9, 4);
}

static void a_full_queue_is_served_in_order(void)
{
    uint32_t ids[WQ_MAX_WAITERS];
    const size_t count = all_in_order(ids);
    all_wait();
    for (size_t i = 0; i < count; i++)
        hands_over(i == 0 ? WQ_MAX_WAITERS : ids[i - 1], ids[i], (int64_t)(count - 1 - i));
    EQUAL(wq_k_mutex_unlock(&m.mutex, ids[count - 1], &m.who), WQ_UNLOCK_UNLOCKED);
    is_free();
}

static void only_the_owner_unlocks(void)
{
    made();
    REFUSED(wq_k_mutex_unlock(&m.mutex, 4, &m.who), WQ_EINVAL);
    lock(4, 20, WQ_OK);
    REFUSED(wq_k_mutex_unlock(&m.mutex, 7, &m.who), WQ_EPERM);
    lock(4, 20, WQ_OK);
    REFUSED(wq_k_mutex_unlock(&m.mutex, 7, &m.who), WQ_EPERM);
    three_wait();
    REFUSED(wq_k_mutex_unlock(&m.mutex, 3, &m.who), WQ_EPERM);
    REFUSED(wq_k_mutex_unlock(&m.mutex, 8, &m.who), WQ_EPERM);
}

static void who_unlocked_it_cannot_unlock_it_again(void)
{
    made();
    lock(4, 20, WQ_OK);
    EQUAL(wq_k_mutex_unlock(&m.mutex, 4, &m.who), WQ_UNLOCK_UNLOCKED);
    REFUSED(wq_k_mutex_unlock(&m.mutex, 4, &m.who), WQ_EINVAL);
    three_wait();
    hands_over(4, 3, 2);
    REFUSED(wq_k_mutex_unlock(&m.mutex, 4, &m.who), WQ_EPERM);
}

static void who_waits_here_cannot_lock(void)
{
    static const uint32_t ids[] = {3, 7, 9};
    three_wait();
    for (int i = 0; i < 3; i++) {
        running(ids[i], 0);
        REFUSED(wq_k_mutex_lock(&m.mutex, &m.thread), WQ_EBUSY);
    }
}

static void one_too_many_is_refused(void)
{
    all_wait();
    numbers(WQ_MAX_WAITERS, 1, WQ_MAX_WAITERS);
    running(100, 0);
    REFUSED(wq_k_mutex_lock(&m.mutex, &m.thread), WQ_ENOMEM);
    lock(WQ_MAX_WAITERS, 0, WQ_OK);
    EQUAL(wq_k_mutex_unlock(&m.mutex, WQ_MAX_WAITERS, &m.who), WQ_UNLOCK_RELEASED);
    hands_over(WQ_MAX_WAITERS, 31, WQ_MAX_WAITERS - 1);
    lock(100, 0, WQ_WAITS);
    numbers(31, 1, WQ_MAX_WAITERS);
}

static void refused(uint32_t id, uint32_t priority, uint32_t state, int32_t code)
{
    m.thread = (struct wq_thread){id, priority, state, 0};
    REFUSED(wq_k_mutex_lock(&m.mutex, &m.thread), code);
}

/* The caller's numbers are tested first, whether it would get the mutex or wait or neither. */
static void bad_callers_are_refused(uint32_t id)
{
    for (size_t i = 0; i < BAD_CALLERS; i++)
        refused(id, bad_callers[i].priority, bad_callers[i].state, bad_callers[i].code);
}

static void bad_callers_get_nothing(void)
{
    made();
    bad_callers_are_refused(4);
    three_wait();
    bad_callers_are_refused(4);
    bad_callers_are_refused(8);
    bad_callers_are_refused(7);
    m.mutex.head[LOCKS] = UINT32_MAX;
    bad_callers_are_refused(4);
    all_wait();
    bad_callers_are_refused(100);
    bad_callers_are_refused(7);
}

static void of_two_refusals_the_first_is_answered(void)
{
    all_wait();
    refused(7, 5, WQ_RUNNING, WQ_EBUSY);
    m.mutex.head[LEN] = WQ_MAX_WAITERS + 1;
    refused(7, 5, WQ_RUNNING, WQ_EINVAL);
    refused(7, 5, WQ_BLOCKED, WQ_EINVAL);
    m.mutex.head[LOCKS] = UINT32_MAX;
    refused(WQ_MAX_WAITERS, 5, WQ_RUNNING, WQ_EINVAL);
    REFUSED(wq_k_mutex_try_lock(&m.mutex, WQ_MAX_WAITERS), WQ_EINVAL);
    REFUSED(wq_k_mutex_try_lock(&m.mutex, 7), WQ_EINVAL);
    REFUSED(wq_k_mutex_unlock(&m.mutex, 7, &m.who), WQ_EINVAL);
}

static void a_thread_whose_time_is_over_leaves(void)
{
    three_wait();
    EQUAL(wq_k_mutex_remove(&m.mutex, 7), WQ_OK);
    QUEUE(3, 9);
    numbers(4, 1, 2);
    REFUSED(wq_k_mutex_remove(&m.mutex, 7), WQ_ENOENT);
    REFUSED(wq_k_mutex_remove(&m.mutex, 4), WQ_ENOENT);
    EQUAL(wq_k_mutex_remove(&m.mutex, 3), WQ_OK);
    hands_over(4, 9, 0);
    lock(7, 5, WQ_WAITS);
    EQUAL(wq_k_mutex_remove(&m.mutex, 7), WQ_OK);
    EQUAL(wq_k_mutex_unlock(&m.mutex, 9, &m.who), WQ_UNLOCK_UNLOCKED);
    is_free();
}

static void entries_behind_the_queue_stay(void)
{
    three_wait();
    hands_over(4, 3, 2);
    lock(4, 31, WQ_WAITS);
    hands_over(3, 7, 2);
    hands_over(7, 9, 1);
    hands_over(9, 4, 0);
    EQUAL(wq_k_mutex_unlock(&m.mutex, 4, &m.who), WQ_UNLOCK_UNLOCKED);
    for (const unsigned char *p = (unsigned char *)&m.mutex.entry[3]; p < (unsigned char *)(&m.mutex + 1); p++)
        EQUAL(*p, FILL);
}

static void malformed_headers_are_refused(void)
{
    static const uint32_t callers[] = {4, 7, 100, UINT32_MAX};
    all_wait();
    for (size_t i = 0; i < MALFORMED_MUTEXES; i++) {
        const uint32_t *bad = malformed_mutexes[i];
        with_head(bad[OWNED], bad[OWNER], bad[LOCKS], bad[LEN]);
        for (size_t k = 0; k < sizeof callers / sizeof callers[0]; k++) {
            REFUSED(wq_k_mutex_try_lock(&m.mutex, callers[k]), WQ_EINVAL);
            REFUSED(wq_k_mutex_unlock(&m.mutex, callers[k], &m.who), WQ_EINVAL);
            refused(callers[k], 5, WQ_RUNNING, WQ_EINVAL);
            refused(callers[k], 5, WQ_BLOCKED, WQ_EINVAL);
        }
        REFUSED(wq_k_mutex_is_locked(&m.mutex), WQ_EINVAL);
        REFUSED(wq_k_mutex_owner_get(&m.mutex), WQ_EINVAL);
        REFUSED(wq_k_mutex_lock_count_get(&m.mutex), WQ_EINVAL);
        REFUSED(wq_k_mutex_num_waiters(&m.mutex), WQ_EINVAL);
        REFUSED(wq_k_mutex_audit(&m.mutex), false);
        if (bad[LEN] > WQ_MAX_WAITERS)
            REFUSED(wq_k_mutex_remove(&m.mutex, 7), WQ_EINVAL);
    }
}

static void an_audit_changes_nothing(void)
{
    all_wait();
    keep();
    CHECK(wq_k_mutex_audit(&m.mutex));
    CHECK(stays());
}

static void an_audit_finds_a_bad_queue(void)
{
    for (size_t i = 0; i < BAD_ENTRIES; i++) {
        three_wait();
        m.mutex.entry[bad_entries[i].at] = entry_of(bad_entries[i].priority, bad_entries[i].id);
        REFUSED(wq_k_mutex_audit(&m.mutex), false);
    }
}

/* What is behind the entries would continue the queue. */
static void an_audit_does_not_look_behind_the_entries(void)
{
    struct {
        struct wq_mutex mutex;
        uint64_t behind;
    } place;
    all_wait();
    place.mutex = m.mutex;
    place.behind = entry_of(0, 100);
    CHECK(wq_k_mutex_audit(&place.mutex));
    place.mutex.head[LEN] = WQ_MAX_WAITERS + 1;
    CHECK(!wq_k_mutex_audit(&place.mutex));
}

static void an_audit_looks_for_the_owner_everywhere(void)
{
    static const uint32_t ids[] = {3, 7, 9};
    for (int i = 0; i < 3; i++) {
        three_wait();
        m.mutex.head[OWNER] = ids[i];
        REFUSED(wq_k_mutex_audit(&m.mutex), false);
    }
    all_wait();
    m.mutex.head[OWNER] = 0;
    REFUSED(wq_k_mutex_audit(&m.mutex), false);
}

static void lock_decisions(void)
{
    for (int no_wait = 0; no_wait < 2; no_wait++) {
        for (int current = 0; current < 2; current++) {
            EQUAL(wq_mutex_lock_decide(0, true, current, no_wait), WQ_LOCK_ACQUIRE);
            EQUAL(wq_mutex_lock_decide(1, true, current, no_wait), WQ_EINVAL);
            EQUAL(wq_mutex_lock_decide(UINT32_MAX, true, current, no_wait), WQ_EINVAL);
            EQUAL(wq_mutex_lock_decide(0, false, current, no_wait), WQ_EINVAL);
        }
        EQUAL(wq_mutex_lock_decide(1, false, true, no_wait), WQ_LOCK_REENTRANT);
        EQUAL(wq_mutex_lock_decide(UINT32_MAX - 1, false, true, no_wait), WQ_LOCK_REENTRANT);
        EQUAL(wq_mutex_lock_decide(UINT32_MAX, false, true, no_wait), WQ_EOVERFLOW);
        EQUAL(wq_mutex_lock_decide(1, false, false, no_wait), no_wait ? WQ_EBUSY : WQ_LOCK_PEND);
        EQUAL(wq_mutex_lock_decide(UINT32_MAX, false, false, no_wait), no_wait ? WQ_EBUSY : WQ_LOCK_PEND);
    }
}

static void unlock_decisions(void)
{
    for (int current = 0; current < 2; current++) {
        EQUAL(wq_mutex_unlock_decide(0, true, current), WQ_EINVAL);
        EQUAL(wq_mutex_unlock_decide(1, true, current), WQ_EINVAL);
        EQUAL(wq_mutex_unlock_decide(2, true, current), WQ_EINVAL);
        EQUAL(wq_mutex_unlock_decide(0, false, current), WQ_EINVAL);
    }
    EQUAL(wq_mutex_unlock_decide(1, false, false), WQ_EPERM);
    EQUAL(wq_mutex_unlock_decide(2, false, false), WQ_EPERM);
    EQUAL(wq_mutex_unlock_decide(1, false, true), WQ_UNLOCK_UNLOCKED);
    EQUAL(wq_mutex_unlock_decide(2, false, true), WQ_UNLOCK_RELEASED);
    EQUAL(wq_mutex_unlock_decide(UINT32_MAX, false, true), WQ_UNLOCK_RELEASED);
}

/* 8 calls; 9 waits, where anybody does. */
static void a_decision_agrees(bool owned, bool current, uint32_t locks, uint32_t waiters)
{
    const uint32_t owner = current ? 8 : 7;
    int32_t decided = wq_mutex_lock_decide(locks, !owned, current, true);
    with_head(owned, owner, locks, waiters);
    m.mutex.entry[0] = entry_of(5, 9);
    EQUAL(wq_k_mutex_try_lock(&m.mutex, 8), decided == WQ_LOCK_REENTRANT ? WQ_OK : decided);

    decided = wq_mutex_lock_decide(locks, !owned, current, false);
    with_head(owned, owner, locks, waiters);
    EQUAL(wq_k_mutex_lock(&m.mutex, running(8, 5)), decided == WQ_LOCK_REENTRANT ? WQ_OK : decided);

    decided = wq_mutex_unlock_decide(locks, !owned, current);
    with_head(owned, owner, locks, waiters);
    m.mutex.entry[0] = entry_of(5, 9);
    EQUAL(wq_k_mutex_unlock(&m.mutex, 8, &m.who),
          decided == WQ_UNLOCK_UNLOCKED && waiters > 0 ? WQ_UNLOCK_TRANSFERRED : decided);
}

static void decide_functions_agree(void)
{
    static const uint32_t locks[] = {0, 1, 2, UINT32_MAX - 1, UINT32_MAX};
    for (size_t i = 0; i < sizeof locks / sizeof locks[0]; i++) {
        for (int current = 0; current < 2; current++) {
            a_decision_agrees(false, current, locks[i], 0);
            a_decision_agrees(true, current, locks[i], 0);
            a_decision_agrees(true, current, locks[i], 1);
        }
    }
}

static const struct test tests[] = {
    TEST(the_arm_of_a_milking_robot),
    TEST(a_new_mutex_is_free),
    TEST(a_free_mutex_is_taken),
    TEST(of_a_free_mutex_nobody_is_owner),
    TEST(any_word_but_0_is_owned),
    TEST(the_owner_locks_again),
    TEST(the_last_lock_that_can_be_counted),
    TEST(what_another_has_cannot_be_had_at_once),
    TEST(a_thread_waits_behind_equal_and_higher),
    TEST(an_entry_is_priority_and_id),
    TEST(who_waits_is_blocked_and_nothing_else),
    TEST(a_nested_unlock_keeps_it),
    TEST(the_last_unlock_frees_it),
    TEST(the_last_unlock_hands_it_to_the_first),
    TEST(who_was_handed_it_owns_it),
    TEST(a_full_queue_is_served_in_order),
    TEST(only_the_owner_unlocks),
    TEST(who_unlocked_it_cannot_unlock_it_again),
    TEST(who_waits_here_cannot_lock),
    TEST(one_too_many_is_refused),
    TEST(bad_callers_get_nothing),
    TEST(of_two_refusals_the_first_is_answered),
    TEST(a_thread_whose_time_is_over_leaves),
    TEST(entries_behind_the_queue_stay),
    TEST(malformed_headers_are_refused),
    TEST(an_audit_changes_nothing),
    TEST(an_audit_finds_a_bad_queue),
    TEST(an_audit_does_not_look_behind_the_entries),
    TEST(an_audit_looks_for_the_owner_everywhere),
    TEST(lock_decisions),
    TEST(unlock_decisions),
    TEST(decide_functions_agree),
};

const struct group mutex_group = GROUP("mutex", tests);
