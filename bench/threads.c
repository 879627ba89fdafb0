/* Wait queue, semaphore, mutex, condition variable and futex: threads that wait and are woken.
 *
 * SPDX-License-Identifier: Apache-2.0
 */
#include <string.h>
#include "bench.h"
#include "forms.h"

/* What empties an object is measured on many, one after the other, since a clock ticks in nanoseconds: on so many as the
 * nearest cache holds with those that wait. */
enum {
    FEW_WAIT = 1, MANY_OBJECTS = 256,
    SOME_WAIT = 8, SOME_OBJECTS = 128,
    MANY_WAIT = 64, FEW_OBJECTS = 32,
    REST = WQ_MAX_WAITERS + 2,
};

static form_sem sems[MANY_OBJECTS];
static form_mutex mutexes[MANY_OBJECTS];
static form_condvar condvars[MANY_OBJECTS];
static uint32_t objects; /* how many of them the case has */
static uint32_t threads; /* how many threads an object has */

static uint8_t priorities[SAMPLE]; /* of a thread that comes back */
static uint8_t early[MANY_OBJECTS * (FEW_WAIT + 1) + FEW_OBJECTS * (MANY_WAIT + 1)]; /* of those that wait first, by id */

/* In the middle: every other that waits first has a lower priority, so that it stays, and who comes back joins before
 * those and behind all others. */
static void choose_priorities(const char *how)
{
    bool random = strcmp(how, "random") == 0, middle = strcmp(how, "middle") == 0;
    uint32_t state = 12345;
    for (size_t i = 0; i < SAMPLE; i++) {
        state = state * 1664525u + 1013904223u;
        priorities[i] = random ? state >> 24 & (WQ_MAX_PRIORITY - 1) : 5;
        if (i < sizeof early)
            early[i] = middle && i % 2 == 1 ? 9 : priorities[i];
    }
}

/* ---- Operations -------------------------------------------------------------------------------
 *
 * What the objects hold in the end is found by using them up: in REST calls, or they hold too much. */

/* The threads of one object have ids from here on. */
static uint32_t first_id(uint32_t object)
{
    return object * threads;
}

static void have(uint32_t many, uint32_t waiters)
{
    objects = many;
    threads = waiters + 1;
}

/* As many as one measurement empties. */
static inline uint32_t many(uint32_t waiters)
{
    return waiters <= FEW_WAIT ? MANY_OBJECTS : waiters <= SOME_WAIT ? SOME_OBJECTS : FEW_OBJECTS;
}

static void make_sems(uint32_t waiters)
{
    for (uint32_t s = 0; s < objects; s++) {
        expect(form_sem_init(&sems[s], 0, 1) == WQ_OK, "a semaphore is not made");
        for (uint32_t i = 0; i < waiters; i++) {
            uint32_t id = first_id(s) + i;
            expect(form_sem_take(&sems[s], form_thread_new(id), early[id]) == WQ_WAITS, "a thread does not wait");
        }
    }
}

static void prepare_sem(uint32_t waiters)
{
    have(1, waiters);
    make_sems(waiters);
}

/* Who is woken by the give takes again; where nobody waits, it is always the same thread. */
static NOINLINE uint32_t run_sem_give_take(uint32_t times)
{
    form_thread t = form_thread_new(0);
    uint32_t sum = 1;
    for (uint32_t i = 0; i < times; i++) {
        form_sem_give(&sems[0], &t);
        int32_t result = form_sem_take(&sems[0], t, priorities[i]);
        sum = mix(sum, form_thread_id(t), result);
    }
    return sum;
}

#ifdef HAVE_SEM_RESET
static void prepare_sems(uint32_t waiters)
{
    have(many(waiters), waiters);
    make_sems(waiters);
}

static NOINLINE uint32_t run_sem_reset(uint32_t times)
{
    uint32_t sum = 1;
    for (uint32_t i = 0; i < times; i++)
        sum = form_sem_reset(&sems[i], sum);
    return sum;
}
#endif

static uint32_t rest_of_sems(uint32_t sum)
{
    form_thread t = form_thread_new(0);
    for (uint32_t s = 0; s < objects; s++) {
        int32_t given = WQ_GIVE_WOKE;
        for (int i = 0; i < REST && given == WQ_GIVE_WOKE; i++) {
            given = form_sem_give(&sems[s], &t);
            sum = mix(sum, form_thread_id(t), given);
        }
    }
    return sum;
}

/* The first thread locks it, and as many as are to wait lock it after that. */
static void prepare_mutex(uint32_t waiters)
{
    have(1, waiters);
    expect(form_mutex_init(&mutexes[0]) == WQ_OK, "a mutex is not made");
    for (uint32_t i = 0; i <= waiters; i++)
        expect(form_mutex_lock(&mutexes[0], form_thread_new(i), early[i]) == (i == 0 ? WQ_OK : WQ_WAITS),
               "a thread neither gets the mutex nor waits");
}

static void prepare_free_mutex(uint32_t waiters)
{
    have(1, waiters);
    expect(form_mutex_init(&mutexes[0]) == WQ_OK, "a mutex is not made");
}

/* The owner of the first mutex, or, where it is free, who had it last. */
static form_thread owner;

static NOINLINE uint32_t run_mutex_lock_unlock(uint32_t times)
{
    form_thread t = form_thread_new(0), who = t;
    uint32_t sum = 1;
    for (uint32_t i = 0; i < times; i++) {
        int32_t locked = form_mutex_lock(&mutexes[0], t, priorities[i]);
        int32_t unlocked = form_mutex_unlock(&mutexes[0], t, &who);
        sum = mix(sum, (uint32_t)locked, unlocked);
    }
    owner = t;
    return sum;
}

/* The owner unlocks, so that the first waiter has it, and waits for it again. */
static NOINLINE uint32_t run_mutex_hand_over(uint32_t times)
{
    form_thread t = form_thread_new(0), next = t;
    uint32_t sum = 1;
    for (uint32_t i = 0; i < times; i++) {
        int32_t unlocked = form_mutex_unlock(&mutexes[0], t, &next);
        int32_t locked = form_mutex_lock(&mutexes[0], t, priorities[i]);
        t = next;
        sum = mix(sum, form_thread_id(t), 4 * locked + unlocked);
    }
    owner = t;
    return sum;
}

/* A lock first, since nobody can unlock a free mutex; then unlocks until it is free. */
static uint32_t rest_of_mutex(uint32_t sum)
{
    int32_t unlocked = WQ_UNLOCK_RELEASED;
    sum = mix(sum, form_thread_id(owner), form_mutex_lock(&mutexes[0], owner, 0));
    for (int i = 0; i < REST && unlocked != WQ_UNLOCK_UNLOCKED; i++) {
        unlocked = form_mutex_unlock(&mutexes[0], owner, &owner);
        expect(unlocked >= 0, "the owner cannot unlock");
        sum = mix(sum, form_thread_id(owner), unlocked);
    }
    return sum;
}

/* Each condition variable with its mutex, which is free. */
static void make_condvars(uint32_t waiters)
{
    for (uint32_t c = 0; c < objects; c++) {
        expect(form_mutex_init(&mutexes[c]) == WQ_OK, "a mutex is not made");
        expect(form_condvar_init(&condvars[c]) == WQ_OK, "a condition variable is not made");
        for (uint32_t i = 0; i < waiters; i++) {
            uint32_t id = first_id(c) + i;
            form_thread t = form_thread_new(id), who = t;
            expect(form_mutex_lock(&mutexes[c], t, early[id]) == WQ_OK, "a thread does not get the mutex");
            expect(form_condvar_wait(&condvars[c], &mutexes[c], t, early[id], &who) == WQ_WAITS,
                   "a thread does not wait");
        }
    }
}

static void prepare_condvar(uint32_t waiters)
{
    have(1, waiters);
    make_condvars(waiters);
}

/* Who is woken locks the mutex, as it has to, and waits again, by which the mutex is free. */
static NOINLINE uint32_t run_condvar_signal_wait(uint32_t times)
{
    form_thread t = form_thread_new(0), who = t;
    uint32_t sum = 1;
    for (uint32_t i = 0; i < times; i++) {
        int32_t woken = form_condvar_signal(&condvars[0], &t);
        int32_t locked = form_mutex_lock(&mutexes[0], t, priorities[i]);
        int32_t waits = form_condvar_wait(&condvars[0], &mutexes[0], t, priorities[i], &who);
        sum = mix(sum, form_thread_id(t), 16 * woken + 4 * locked + waits);
    }
    return sum;
}

#ifdef HAVE_CONDVAR_BROADCAST
static void prepare_condvars(uint32_t waiters)
{
    have(many(waiters), waiters);
    make_condvars(waiters);
}

static NOINLINE uint32_t run_condvar_broadcast(uint32_t times)
{
    uint32_t sum = 1;
    for (uint32_t i = 0; i < times; i++)
        sum = form_condvar_broadcast(&condvars[i], sum);
    return sum;
}
#endif

static uint32_t rest_of_condvars(uint32_t sum)
{
    form_thread t = form_thread_new(0);
    for (uint32_t c = 0; c < objects; c++) {
        int32_t woken = 1;
        for (int i = 0; i < REST && woken == 1; i++) {
            woken = form_condvar_signal(&condvars[c], &t);
            sum = mix(sum, form_thread_id(t), woken);
        }
    }
    owner = t;
    return rest_of_mutex(sum);
}

/* ---- Wait queue and futex --------------------------------------------------------------------- */

#ifdef HAVE_QUEUE
static form_queue queue;
static uint8_t leaves[SAMPLE]; /* who leaves next */

static void prepare_queue(uint32_t waiters)
{
    uint32_t state = 54321;
    form_queue_init(&queue);
    for (uint32_t i = 0; i < waiters; i++)
        expect(form_queue_pend(&queue, form_thread_new(i), early[i]) == WQ_WAITS, "a thread does not wait");
    for (size_t i = 0; i < SAMPLE; i++) {
        state = state * 1664525u + 1013904223u;
        leaves[i] = (uint8_t)((state >> 16) % waiters);
    }
}

/* One that waits anywhere in the queue leaves it, as when its time is over, and waits again, behind all others. */
static NOINLINE uint32_t run_queue_remove_pend(uint32_t times)
{
    uint32_t sum = 1;
    for (uint32_t i = 0; i < times; i++) {
        form_thread t = form_thread_new(leaves[i]);
        int32_t left = form_queue_remove(&queue, t);
        int32_t waits = form_queue_pend(&queue, t, priorities[i]);
        sum = mix(sum, leaves[i], 4 * left + waits);
    }
    return sum;
}

static uint32_t rest_of_queue(uint32_t sum)
{
    form_thread t = form_thread_new(0);
    for (int i = 0; i < REST && form_queue_unpend_first(&queue, &t) == 1; i++)
        sum = mix(sum, form_thread_id(t), i);
    return sum;
}
#endif

#ifdef HAVE_FUTEX
static form_futex futex;

static void prepare_futex(uint32_t waiters)
{
    expect(form_futex_init(&futex, 1) == WQ_OK, "a futex is not made");
    for (uint32_t i = 0; i < waiters; i++)
        expect(form_futex_wait(&futex, 1, form_thread_new(i), early[i]) == WQ_WAITS, "a thread does not wait");
}

/* A wake of one; who is woken waits again. */
static NOINLINE uint32_t run_futex_wake_wait(uint32_t times)
{
    form_thread t = form_thread_new(0);
    uint32_t sum = 1;
    for (uint32_t i = 0; i < times; i++) {
        int32_t woken = form_futex_wake(&futex, &t);
        int32_t waits = form_futex_wait(&futex, 1, t, priorities[i]);
        sum = mix(sum, form_thread_id(t), 4 * woken + waits);
    }
    return sum;
}

static NOINLINE uint32_t run_futex_set(uint32_t times)
{
    uint32_t sum = 1;
    for (uint32_t i = 0; i < times; i++)
        sum = mix(sum, i, form_futex_set(&futex, i));
    return sum;
}

static uint32_t rest_of_futex(uint32_t sum)
{
    form_thread t = form_thread_new(0);
    for (int i = 0; i < REST && form_futex_wake(&futex, &t) == 1; i++)
        sum = mix(sum, form_thread_id(t), i);
    return sum;
}
#endif

/* ---- Cases ------------------------------------------------------------------------------------ */

static const struct bench cases[] = {
#define SEM_GIVE_TAKE(waiters, priorities) \
    {"sem give+take", waiters, priorities, prepare_sem, run_sem_give_take, rest_of_sems, SAMPLE, SAMPLE}
    SEM_GIVE_TAKE(0, "-"),
    SEM_GIVE_TAKE(1, "equal"),
    SEM_GIVE_TAKE(2, "equal"),
    SEM_GIVE_TAKE(4, "equal"),
    SEM_GIVE_TAKE(8, "equal"),
    SEM_GIVE_TAKE(16, "equal"),
    SEM_GIVE_TAKE(32, "equal"),
    SEM_GIVE_TAKE(48, "equal"),
    SEM_GIVE_TAKE(63, "equal"),
    SEM_GIVE_TAKE(8, "random"),
    SEM_GIVE_TAKE(32, "random"),
    SEM_GIVE_TAKE(63, "random"),
    SEM_GIVE_TAKE(8, "middle"),
    SEM_GIVE_TAKE(32, "middle"),
    SEM_GIVE_TAKE(63, "middle"),
#ifdef HAVE_SEM_RESET
#define SEM_RESET(waiters, objects) \
    {"sem reset", waiters, "equal", prepare_sems, run_sem_reset, rest_of_sems, objects, 4 * objects}
    SEM_RESET(FEW_WAIT, MANY_OBJECTS),
    SEM_RESET(SOME_WAIT, SOME_OBJECTS),
    SEM_RESET(MANY_WAIT, FEW_OBJECTS),
#endif
    {"mutex lock+unlock", 0, "-", prepare_free_mutex, run_mutex_lock_unlock, rest_of_mutex, SAMPLE, SAMPLE},
    {"mutex nested", 0, "-", prepare_mutex, run_mutex_lock_unlock, rest_of_mutex, SAMPLE, SAMPLE},
#define MUTEX_HAND_OVER(waiters, priorities) \
    {"mutex hand-over", waiters, priorities, prepare_mutex, run_mutex_hand_over, rest_of_mutex, SAMPLE, SAMPLE}
    MUTEX_HAND_OVER(1, "equal"),
    MUTEX_HAND_OVER(8, "equal"),
    MUTEX_HAND_OVER(8, "random"),
    MUTEX_HAND_OVER(8, "middle"),
    MUTEX_HAND_OVER(40, "equal"),
    MUTEX_HAND_OVER(40, "random"),
    MUTEX_HAND_OVER(40, "middle"),
#define CONDVAR_SIGNAL_WAIT(waiters, priorities)                                           \
    {"condvar signal+wait", waiters, priorities, prepare_condvar, run_condvar_signal_wait, \
     rest_of_condvars, SAMPLE, SAMPLE}
    CONDVAR_SIGNAL_WAIT(1, "equal"),
    CONDVAR_SIGNAL_WAIT(8, "equal"),
    CONDVAR_SIGNAL_WAIT(8, "random"),
    CONDVAR_SIGNAL_WAIT(8, "middle"),
    CONDVAR_SIGNAL_WAIT(64, "equal"),
    CONDVAR_SIGNAL_WAIT(64, "random"),
    CONDVAR_SIGNAL_WAIT(64, "middle"),
#ifdef HAVE_CONDVAR_BROADCAST
#define CONDVAR_BROADCAST(waiters, objects)                                          \
    {"condvar broadcast", waiters, "equal", prepare_condvars, run_condvar_broadcast, \
     rest_of_condvars, objects, 4 * objects}
    CONDVAR_BROADCAST(FEW_WAIT, MANY_OBJECTS),
    CONDVAR_BROADCAST(SOME_WAIT, SOME_OBJECTS),
    CONDVAR_BROADCAST(MANY_WAIT, FEW_OBJECTS),
#endif
#ifdef HAVE_FUTEX
#define FUTEX_WAKE_WAIT(waiters, priorities) \
    {"futex wake+wait", waiters, priorities, prepare_futex, run_futex_wake_wait, rest_of_futex, SAMPLE, SAMPLE}
    FUTEX_WAKE_WAIT(1, "equal"),
    FUTEX_WAKE_WAIT(8, "equal"),
    FUTEX_WAKE_WAIT(8, "middle"),
    FUTEX_WAKE_WAIT(64, "equal"),
    {"futex set", 0, "-", prepare_futex, run_futex_set, rest_of_futex, SAMPLE, SAMPLE},
#endif
#ifdef HAVE_QUEUE
#define QUEUE_REMOVE_PEND(waiters) \
    {"queue remove+pend", waiters, "equal", prepare_queue, run_queue_remove_pend, rest_of_queue, SAMPLE, SAMPLE}
    QUEUE_REMOVE_PEND(1),
    QUEUE_REMOVE_PEND(8),
    QUEUE_REMOVE_PEND(64),
#endif
};

const struct group thread_group = {cases, COUNT_OF(cases), choose_priorities};
