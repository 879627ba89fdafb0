/* The objects as in Zephyr: a doubly linked list of threads, sorted by priority, the first to be woken first. With
 * CHECKED 1 they make the refusals of waitqueue.h in the order listed there, for which they count who waits; with
 * CHECKED 0 none.
 *
 * SPDX-License-Identifier: Apache-2.0
 */
#include <stddef.h>
#include "c_common.h"
#include "forms.h"

/* ---- Queue ------------------------------------------------------------------------------------ */

static inline void queue_init(struct list_queue *q)
{
    q->len = 0;
    q->ends.next = &q->ends;
    q->ends.prev = &q->ends;
}

static inline bool nobody_waits(const struct list_queue *q)
{
    return q->ends.next == &q->ends;
}

static inline struct list_thread *thread_of(struct link *l)
{
    return (struct list_thread *)l;
}

static inline struct list_thread *unlink_first(struct list_queue *q, int32_t return_value)
{
    struct link *first = q->ends.next;
    first->next->prev = &q->ends;
    q->ends.next = first->next;
    first->next = NULL;
    first->prev = NULL;
    if (CHECKED)
        q->len--;

    thread_of(first)->return_value = return_value;
    return thread_of(first);
}

static inline int32_t unlink_all(struct list_queue *q, int32_t return_value, struct list_thread **out)
{
    int32_t woken = 0;
    while (!nobody_waits(q))
        out[woken++] = unlink_first(q, return_value);
    return woken;
}

static ALWAYS_INLINE int32_t pend(struct list_queue *q, struct list_thread *t)
{
    struct link *behind = q->ends.next;
    while (behind != &q->ends && thread_of(behind)->priority <= t->priority) {
        if (CHECKED && thread_of(behind)->id == t->id)
            return WQ_EBUSY;
        behind = behind->next;
    }
    if (CHECKED) {
        for (const struct link *l = behind; l != &q->ends; l = l->next)
            if (((const struct list_thread *)l)->id == t->id)
                return WQ_EBUSY;
        if (q->len == WQ_MAX_WAITERS)
            return WQ_ENOMEM;
    }

    t->link.next = behind;
    t->link.prev = behind->prev;
    behind->prev->next = &t->link;
    behind->prev = &t->link;
    if (CHECKED)
        q->len++;
    return WQ_WAITS;
}

void list_queue_init(struct list_queue *q)
{
    queue_init(q);
}

int32_t list_queue_pend(struct list_queue *q, struct list_thread *t, uint32_t state)
{
    REFUSE_CALLER(q->len > WQ_MAX_WAITERS, t->priority, state);
    return pend(q, t);
}

int32_t list_queue_unpend_first(struct list_queue *q, int32_t return_value, struct list_thread **who)
{
    if (CHECKED && q->len > WQ_MAX_WAITERS)
        return WQ_EINVAL;
    if (nobody_waits(q))
        return 0;
    *who = unlink_first(q, return_value);
    return 1;
}

/* A thread does not know the queue that it is in, so that it is looked for; without refusals, it is in this one if it is
 * in any. */
int32_t list_queue_remove(struct list_queue *q, struct list_thread *t)
{
    if (CHECKED) {
        const struct link *l = q->ends.next;
        if (q->len > WQ_MAX_WAITERS)
            return WQ_EINVAL;
        while (l != &q->ends && l != &t->link)
            l = l->next;
        if (l == &q->ends)
            return WQ_ENOENT;
        q->len--;
    } else if (t->link.next == NULL) {
        return WQ_ENOENT;
    }
    t->link.prev->next = t->link.next;
    t->link.next->prev = t->link.prev;
    t->link.next = NULL;
    t->link.prev = NULL;
    return WQ_OK;
}

/* ---- Counting semaphore ----------------------------------------------------------------------- */

static inline bool sem_malformed(const struct list_sem *s)
{
    return s->limit == 0 || s->count > s->limit || (s->queue.len > 0 && s->count > 0) || s->queue.len > WQ_MAX_WAITERS;
}

int32_t list_sem_init(struct list_sem *s, uint32_t count, uint32_t limit)
{
    if (CHECKED && (limit == 0 || count > limit))
        return WQ_EINVAL;
    s->count = count;
    s->limit = limit;
    queue_init(&s->queue);
    return WQ_OK;
}

int32_t list_sem_give(struct list_sem *s, struct list_thread **who)
{
    if (CHECKED && sem_malformed(s))
        return WQ_EINVAL;
    if (!nobody_waits(&s->queue)) {
        *who = unlink_first(&s->queue, WQ_OK);
        return WQ_GIVE_WOKE;
    }
    if (s->count < s->limit) {
        s->count++;
        return WQ_GIVE_INCREMENTED;
    }
    return WQ_GIVE_SATURATED;
}

int32_t list_sem_take_blocking(struct list_sem *s, struct list_thread *t, uint32_t state)
{
    REFUSE_CALLER(sem_malformed(s), t->priority, state);
    if (s->count > 0) {
        s->count--;
        return WQ_OK;
    }
    return pend(&s->queue, t);
}

int32_t list_sem_reset(struct list_sem *s, struct list_thread **out, uint64_t out_len)
{
    if (CHECKED && (sem_malformed(s) || out_len < s->queue.len))
        return WQ_EINVAL;
    int32_t woken = unlink_all(&s->queue, WQ_EAGAIN, out);
    s->count = 0;
    return woken;
}

/* ---- Mutex ------------------------------------------------------------------------------------ */

static inline bool mutex_malformed(const struct list_mutex *m)
{
    return (m->owner != NULL) != (m->lock_count > 0) || (m->queue.len > 0 && m->lock_count == 0) ||
           m->queue.len > WQ_MAX_WAITERS;
}

/* The owner has one lock: the mutex is the first waiter's now, with that one lock, or free. */
static inline int32_t hand_over(struct list_mutex *m, struct list_thread **who)
{
    if (!nobody_waits(&m->queue)) {
        m->owner = unlink_first(&m->queue, WQ_OK);
        *who = m->owner;
        return WQ_UNLOCK_TRANSFERRED;
    }
    m->owner = NULL;
    m->lock_count = 0;
    return WQ_UNLOCK_UNLOCKED;
}

int32_t list_mutex_init(struct list_mutex *m)
{
    m->owner = NULL;
    m->lock_count = 0;
    queue_init(&m->queue);
    return WQ_OK;
}

int32_t list_mutex_lock_blocking(struct list_mutex *m, struct list_thread *t, uint32_t state)
{
    REFUSE_CALLER(mutex_malformed(m), t->priority, state);
    if (m->lock_count == 0) {
        m->owner = t;
        m->lock_count = 1;
        return WQ_OK;
    }
    if (m->owner == t) {
        if (CHECKED && m->lock_count == UINT32_MAX)
            return WQ_EOVERFLOW;
        m->lock_count++;
        return WQ_OK;
    }
    return pend(&m->queue, t);
}

int32_t list_mutex_unlock(struct list_mutex *m, struct list_thread *t, struct list_thread **who)
{
    if (CHECKED) {
        if (mutex_malformed(m) || m->lock_count == 0)
            return WQ_EINVAL;
        if (m->owner != t)
            return WQ_EPERM;
    }
    if (m->lock_count > 1) {
        m->lock_count--;
        return WQ_UNLOCK_RELEASED;
    }
    return hand_over(m, who);
}

/* ---- Condition variable ----------------------------------------------------------------------- */

int32_t list_condvar_init(struct list_condvar *c)
{
    queue_init(&c->queue);
    return WQ_OK;
}

int32_t list_condvar_signal(struct list_condvar *c, struct list_thread **who)
{
    if (CHECKED && c->queue.len > WQ_MAX_WAITERS)
        return WQ_EINVAL;
    if (nobody_waits(&c->queue))
        return 0;
    *who = unlink_first(&c->queue, WQ_OK);
    return 1;
}

int32_t list_condvar_broadcast(struct list_condvar *c, struct list_thread **out, uint64_t out_len)
{
    if (CHECKED && (c->queue.len > WQ_MAX_WAITERS || out_len < c->queue.len))
        return WQ_EINVAL;
    return unlink_all(&c->queue, WQ_OK, out);
}

int32_t list_condvar_wait_blocking(struct list_condvar *c, struct list_mutex *m, struct list_thread *t, uint32_t state,
                                   struct list_thread **who)
{
    REFUSE_CALLER(mutex_malformed(m), t->priority, state);
    if (CHECKED) {
        if (m->lock_count == 0)
            return WQ_EINVAL;
        if (m->owner != t)
            return WQ_EPERM;
        if (m->lock_count > 1)
            return WQ_EDEADLK;
        if (c->queue.len > WQ_MAX_WAITERS)
            return WQ_EINVAL;
    }
    int32_t result = pend(&c->queue, t);
    if (CHECKED && result != WQ_WAITS)
        return result;
    return hand_over(m, who); /* which answers 1, that is WQ_WAITS, where it is free */
}

/* ---- Futex ------------------------------------------------------------------------------------ */

int32_t list_futex_init(struct list_futex *f, uint32_t val)
{
    f->val = val;
    queue_init(&f->queue);
    return WQ_OK;
}

int32_t list_futex_wait(struct list_futex *f, uint32_t expected, struct list_thread *t, uint32_t state)
{
    REFUSE_CALLER(f->queue.len > WQ_MAX_WAITERS, t->priority, state);
    if (f->val != expected)
        return WQ_EAGAIN;
    return pend(&f->queue, t);
}

int32_t list_futex_wake(struct list_futex *f, bool wake_all, struct list_thread **out, uint64_t out_len)
{
    if (CHECKED && (f->queue.len > WQ_MAX_WAITERS || (wake_all && out_len < f->queue.len)))
        return WQ_EINVAL;
    if (wake_all)
        return unlink_all(&f->queue, WQ_OK, out);
    if (nobody_waits(&f->queue))
        return 0;
    if (CHECKED && out_len == 0)
        return WQ_EINVAL;
    out[0] = unlink_first(&f->queue, WQ_OK);
    return 1;
}

int32_t list_futex_val_set(struct list_futex *f, uint32_t val)
{
    if (CHECKED && f->queue.len > WQ_MAX_WAITERS)
        return WQ_EINVAL;
    f->val = val;
    return WQ_OK;
}
