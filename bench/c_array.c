/* The objects of waitqueue.h in C, under the header's own names, so that ours and these are called by the same driver.
 * With CHECKED 1 they make the refusals that the header lists, in that order; with CHECKED 0 none.
 *
 * SPDX-License-Identifier: Apache-2.0
 */
#include <stddef.h>
#include "c_common.h"
#include "waitqueue.h"

/* ---- Queue ------------------------------------------------------------------------------------ */

/* Without an early exit, so that the compiler can compare several entries at a time. */
static inline bool holds(const uint64_t *entry, size_t len, uint32_t id)
{
    uint32_t found = 0;
    for (size_t i = 0; i < len; i++)
        found |= (uint32_t)entry[i] == id;
    return found;
}

/* Those that are to be woken before the new one move up by one. */
static inline void insert(uint64_t *entry, size_t len, uint32_t id, uint32_t priority)
{
    uint64_t greatest = (uint64_t)priority << 32 | UINT32_MAX;
    size_t i = len;
    while (i > 0 && entry[i - 1] <= greatest) {
        entry[i] = entry[i - 1];
        i--;
    }
    entry[i] = (uint64_t)priority << 32 | id;
}

static ALWAYS_INLINE int32_t pend(uint32_t *len, uint64_t *entry, uint32_t id, uint32_t priority)
{
    if (CHECKED) {
        if (holds(entry, *len, id))
            return WQ_EBUSY;
        if (*len == WQ_MAX_WAITERS)
            return WQ_ENOMEM;
    }
    insert(entry, *len, id, priority);
    (*len)++;
    return WQ_WAITS;
}

/* Somebody waits. The answer is its id, which is also how a thread is handed out that is woken with result 0. */
static inline uint32_t unpend_first(uint32_t *len, const uint64_t *entry)
{
    (*len)--;
    return (uint32_t)entry[*len];
}

static inline void hand_out(const uint64_t *entry, uint32_t len, int32_t result, wq_woken *out)
{
    for (uint32_t i = 0; i < len; i++)
        out[i] = (uint64_t)(uint32_t)result << 32 | (uint32_t)entry[len - 1 - i];
}

void wq_wait_queue_new(uint32_t *len)
{
    *len = 0;
}

int32_t wq_wait_queue_pend(uint32_t *len, uint64_t *entry, uint32_t id, uint32_t priority, uint32_t state)
{
    REFUSE_CALLER(*len > WQ_MAX_WAITERS, priority, state);
    return pend(len, entry, id, priority);
}

int32_t wq_wait_queue_unpend_first(uint32_t *len, const uint64_t *entry, int32_t return_value, wq_woken *who)
{
    if (CHECKED && *len > WQ_MAX_WAITERS)
        return WQ_EINVAL;
    if (*len == 0)
        return 0;
    *who = (uint64_t)(uint32_t)return_value << 32 | unpend_first(len, entry);
    return 1;
}

int32_t wq_wait_queue_remove(uint32_t *len, uint64_t *entry, uint32_t id)
{
    size_t n = *len, i = 0;
    if (CHECKED && n > WQ_MAX_WAITERS)
        return WQ_EINVAL;
    while (i < n && (uint32_t)entry[i] != id)
        i++;
    if (i == n)
        return WQ_ENOENT;
    for (n--; i < n; i++)
        entry[i] = entry[i + 1];
    *len = (uint32_t)n;
    return WQ_OK;
}

/* ---- Counting semaphore ----------------------------------------------------------------------- */

enum { COUNT, LIMIT, SEM_LEN };

static inline bool sem_malformed(const uint32_t *head)
{
    return head[LIMIT] == 0 || head[COUNT] > head[LIMIT] || (head[SEM_LEN] > 0 && head[COUNT] > 0) ||
           head[SEM_LEN] > WQ_MAX_WAITERS;
}

int32_t wq_sem_init(uint32_t *head, uint32_t count, uint32_t limit)
{
    if (CHECKED && (limit == 0 || count > limit))
        return WQ_EINVAL;
    head[COUNT] = count;
    head[LIMIT] = limit;
    head[SEM_LEN] = 0;
    return WQ_OK;
}

int32_t wq_sem_give(uint32_t *head, const uint64_t *entry, wq_woken *who)
{
    if (CHECKED && sem_malformed(head))
        return WQ_EINVAL;
    if (head[SEM_LEN] > 0) {
        *who = unpend_first(&head[SEM_LEN], entry);
        return WQ_GIVE_WOKE;
    }
    if (head[COUNT] < head[LIMIT]) {
        head[COUNT]++;
        return WQ_GIVE_INCREMENTED;
    }
    return WQ_GIVE_SATURATED;
}

int32_t wq_sem_try_take(uint32_t *head, const uint64_t *entry)
{
    (void)entry;
    if (CHECKED && sem_malformed(head))
        return WQ_EINVAL;
    if (head[COUNT] == 0)
        return WQ_EBUSY;
    head[COUNT]--;
    return WQ_OK;
}

int32_t wq_sem_take_blocking(uint32_t *head, uint64_t *entry, uint32_t id, uint32_t priority, uint32_t state)
{
    REFUSE_CALLER(sem_malformed(head), priority, state);
    if (head[COUNT] > 0) {
        head[COUNT]--;
        return WQ_OK;
    }
    return pend(&head[SEM_LEN], entry, id, priority);
}

int32_t wq_sem_reset(uint32_t *head, const uint64_t *entry, wq_woken *out, uint64_t out_len)
{
    uint32_t len = head[SEM_LEN];
    if (CHECKED && (sem_malformed(head) || out_len < len))
        return WQ_EINVAL;
    hand_out(entry, len, WQ_EAGAIN, out);
    head[COUNT] = 0;
    head[SEM_LEN] = 0;
    return (int32_t)len;
}

/* ---- Mutex ------------------------------------------------------------------------------------ */

enum { OWNED, OWNER, LOCKS, MUTEX_LEN };

static inline bool mutex_malformed(const uint32_t *head)
{
    return (head[OWNED] != 0) != (head[LOCKS] > 0) || (head[MUTEX_LEN] > 0 && head[LOCKS] == 0) ||
           head[MUTEX_LEN] > WQ_MAX_WAITERS;
}

/* The owner has one lock: the mutex is the first waiter's now, with that one lock, or free. */
static inline int32_t hand_over(uint32_t *head, const uint64_t *entry, wq_woken *who)
{
    if (head[MUTEX_LEN] > 0) {
        head[OWNER] = unpend_first(&head[MUTEX_LEN], entry);
        *who = head[OWNER];
        return WQ_UNLOCK_TRANSFERRED;
    }
    head[OWNED] = 0;
    head[LOCKS] = 0;
    return WQ_UNLOCK_UNLOCKED;
}

int32_t wq_mutex_init(uint32_t *head)
{
    head[OWNED] = 0;
    head[OWNER] = 0;
    head[LOCKS] = 0;
    head[MUTEX_LEN] = 0;
    return WQ_OK;
}

int32_t wq_mutex_try_lock(uint32_t *head, const uint64_t *entry, uint32_t id)
{
    (void)entry;
    if (CHECKED && mutex_malformed(head))
        return WQ_EINVAL;
    if (head[LOCKS] == 0) {
        head[OWNED] = 1;
        head[OWNER] = id;
        head[LOCKS] = 1;
        return WQ_OK;
    }
    if (head[OWNER] != id)
        return WQ_EBUSY;
    if (CHECKED && head[LOCKS] == UINT32_MAX)
        return WQ_EOVERFLOW;
    head[LOCKS]++;
    return WQ_OK;
}

int32_t wq_mutex_lock_blocking(uint32_t *head, uint64_t *entry, uint32_t id, uint32_t priority, uint32_t state)
{
    REFUSE_CALLER(mutex_malformed(head), priority, state);
    if (head[LOCKS] == 0) {
        head[OWNED] = 1;
        head[OWNER] = id;
        head[LOCKS] = 1;
        return WQ_OK;
    }
    if (head[OWNER] == id) {
        if (CHECKED && head[LOCKS] == UINT32_MAX)
            return WQ_EOVERFLOW;
        head[LOCKS]++;
        return WQ_OK;
    }
    return pend(&head[MUTEX_LEN], entry, id, priority);
}

int32_t wq_mutex_unlock(uint32_t *head, const uint64_t *entry, uint32_t id, wq_woken *who)
{
    if (CHECKED) {
        if (mutex_malformed(head) || head[LOCKS] == 0)
            return WQ_EINVAL;
        if (head[OWNER] != id)
            return WQ_EPERM;
    }
    if (head[LOCKS] > 1) {
        head[LOCKS]--;
        return WQ_UNLOCK_RELEASED;
    }
    return hand_over(head, entry, who);
}

/* ---- Condition variable ----------------------------------------------------------------------- */

int32_t wq_condvar_init(uint32_t *head)
{
    head[0] = 0;
    return WQ_OK;
}

int32_t wq_condvar_signal(uint32_t *head, const uint64_t *entry, wq_woken *who)
{
    if (CHECKED && head[0] > WQ_MAX_WAITERS)
        return WQ_EINVAL;
    if (head[0] == 0)
        return 0;
    *who = unpend_first(&head[0], entry);
    return 1;
}

int32_t wq_condvar_broadcast(uint32_t *head, const uint64_t *entry, wq_woken *out, uint64_t out_len)
{
    uint32_t len = head[0];
    if (CHECKED && (len > WQ_MAX_WAITERS || out_len < len))
        return WQ_EINVAL;
    hand_out(entry, len, WQ_OK, out);
    head[0] = 0;
    return (int32_t)len;
}

int32_t wq_condvar_wait_blocking(uint32_t *head, uint64_t *entry, uint32_t *mutex_head, const uint64_t *mutex_entry,
                                 uint32_t id, uint32_t priority, uint32_t state, wq_woken *who)
{
    REFUSE_CALLER(mutex_malformed(mutex_head), priority, state);
    if (CHECKED) {
        if (mutex_head[LOCKS] == 0)
            return WQ_EINVAL;
        if (mutex_head[OWNER] != id)
            return WQ_EPERM;
        if (mutex_head[LOCKS] > 1)
            return WQ_EDEADLK;
        if (head[0] > WQ_MAX_WAITERS)
            return WQ_EINVAL;
    }
    int32_t result = pend(&head[0], entry, id, priority);
    if (CHECKED && result != WQ_WAITS)
        return result;
    return hand_over(mutex_head, mutex_entry, who); /* which answers 1, that is WQ_WAITS, where it is free */
}

/* ---- Futex ------------------------------------------------------------------------------------ */

enum { VAL, FUTEX_LEN };

int32_t wq_futex_init(uint32_t *head, uint32_t val)
{
    head[VAL] = val;
    head[FUTEX_LEN] = 0;
    return WQ_OK;
}

int32_t wq_futex_wait(uint32_t *head, uint64_t *entry, uint32_t expected, uint32_t id, uint32_t priority, uint32_t state)
{
    REFUSE_CALLER(head[FUTEX_LEN] > WQ_MAX_WAITERS, priority, state);
    if (head[VAL] != expected)
        return WQ_EAGAIN;
    return pend(&head[FUTEX_LEN], entry, id, priority);
}

int32_t wq_futex_wake(uint32_t *head, const uint64_t *entry, bool wake_all, wq_woken *out, uint64_t out_len)
{
    uint32_t len = head[FUTEX_LEN];
    if (CHECKED && len > WQ_MAX_WAITERS)
        return WQ_EINVAL;
    if (len == 0)
        return 0;
    if (CHECKED && out_len < (wake_all ? len : 1))
        return WQ_EINVAL;
    if (wake_all) {
        hand_out(entry, len, WQ_OK, out);
        head[FUTEX_LEN] = 0;
        return (int32_t)len;
    }
    out[0] = unpend_first(&head[FUTEX_LEN], entry);
    return 1;
}

int32_t wq_futex_val_set(uint32_t *head, const uint64_t *entry, uint32_t val)
{
    (void)entry;
    if (CHECKED && head[FUTEX_LEN] > WQ_MAX_WAITERS)
        return WQ_EINVAL;
    head[VAL] = val;
    return WQ_OK;
}
