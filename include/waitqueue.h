/* Waitqueue: kernel objects of a real-time system, proved.
 *
 * Every function takes any numbers and any memory contents, malformed ones too. It refuses with a
 * code below 0, and a refusal leaves every word as it was. Nothing is allocated, nothing blocks:
 * an answer WQ_WAITS tells the scheduler to stop the caller, and a woken thread is handed out for
 * the scheduler to make ready.
 *
 * What the caller has to see to: calls on one object do not overlap in time, pointers are valid, and
 * what a call writes through one pointer (*who, out) does not overlap what it reaches through another.
 *
 * SPDX-License-Identifier: Apache-2.0
 */
#ifndef WAITQUEUE_H
#define WAITQUEUE_H

#include <stdbool.h>
#include <stdint.h>

#ifdef __cplusplus
extern "C" {
#endif

/* ---- Codes -------------------------------------------------------------------------------- */

#define WQ_OK 0
#define WQ_WAITS 1         /* the caller is in the queue now; its result comes when it is woken */
#define WQ_EPERM (-1)      /* the caller does not own it */
#define WQ_ENOENT (-2)     /* the thread is not in this queue */
#define WQ_EAGAIN (-11)    /* try again; also what a reset tells those that waited */
#define WQ_ENOMEM (-12)    /* no room: a full queue or stack, or all blocks are out */
#define WQ_EBUSY (-16)     /* it cannot be had now; the thread waits somewhere already; an empty stack */
#define WQ_EINVAL (-22)    /* malformed object, priority above 31, a thread that is not running, a length that does not fit */
#define WQ_EPIPE (-32)     /* closed */
#define WQ_ENOMSG (-35)    /* a message queue that is full or empty, or holds fewer; nothing asked of a pipe */
#define WQ_EDEADLK (-45)   /* the caller would wait while it keeps the mutex that it should give back */
#define WQ_EOVERFLOW (-139)
#define WQ_ECANCELED (-140)

/* Where two refusals are true, the first of this list is answered, for every object:
 *   1. WQ_EINVAL  the memory or the header is malformed
 *   2. WQ_EINVAL  the caller's priority is above 31
 *   3. WQ_EBUSY   the caller's state is blocked: it waits somewhere already
 *   4. WQ_EINVAL  the caller's state is neither that nor running
 *   5.            the operation's own refusals
 *   6. WQ_EBUSY   for a wait: a thread of this id is in this queue already
 *   7. WQ_ENOMEM  for a wait: the queue is full
 */

/* ---- Threads ------------------------------------------------------------------------------ */

#define WQ_MAX_PRIORITY 32u /* priorities are 0, the highest, to 31 */

enum wq_thread_state { WQ_READY = 0, WQ_RUNNING = 1, WQ_BLOCKED = 2, WQ_SUSPENDED = 3 };

struct wq_thread {
    uint32_t id;
    uint32_t priority;
    uint32_t state; /* enum wq_thread_state */
    int32_t return_value;
};

int32_t wq_priority_new(uint32_t value);                         /* the value; WQ_EINVAL */
int32_t wq_priority_get(uint32_t priority);                      /* the value; WQ_EINVAL */
int32_t wq_priority_is_higher_than(uint32_t a, uint32_t b);      /* 1, 0; WQ_EINVAL */
int32_t wq_priority_is_higher_or_equal(uint32_t a, uint32_t b);  /* 1, 0; WQ_EINVAL */

int32_t wq_thread_dispatch(uint32_t priority, uint32_t *state);
int32_t wq_thread_block(uint32_t priority, uint32_t *state);
int32_t wq_thread_wake(uint32_t priority, uint32_t *state, int32_t *return_value, int32_t result);
bool wq_thread_is_blocked(uint32_t state);

/* WQ_OK, and t is ready with result 0; WQ_EINVAL for a priority above 31, and t stays. */
static inline int32_t wq_thread_init(struct wq_thread *t, uint32_t id, uint32_t priority)
{
    if (wq_priority_new(priority) < 0)
        return WQ_EINVAL;
    t->id = id;
    t->priority = priority;
    t->state = WQ_READY;
    t->return_value = WQ_OK;
    return WQ_OK;
}

/* Ready to running, running to blocked, blocked to ready with a result. Any other state: WQ_EINVAL. */
static inline int32_t wq_dispatch(struct wq_thread *t) { return wq_thread_dispatch(t->priority, &t->state); }
static inline int32_t wq_block(struct wq_thread *t) { return wq_thread_block(t->priority, &t->state); }
static inline int32_t wq_wake(struct wq_thread *t, int32_t result)
{
    return wq_thread_wake(t->priority, &t->state, &t->return_value, result);
}

/* ---- Wait queue --------------------------------------------------------------------------- */

#define WQ_MAX_WAITERS 64 /* threads that can wait on one object */

/* A woken thread, which is to be made ready: its id, and the result of the call in which it waited. */
typedef uint64_t wq_woken;
static inline uint32_t wq_woken_id(wq_woken w) { return (uint32_t)w; }
static inline int32_t wq_woken_result(wq_woken w) { return (int32_t)(uint32_t)(w >> 32); }

/* The first len entries are the queue; entry[len - 1] is woken first. An entry is priority * 2^32 + id. */
struct wq_wait_queue {
    uint32_t len;
    uint64_t entry[WQ_MAX_WAITERS];
};

void wq_wait_queue_new(uint32_t *len);
int32_t wq_wait_queue_len(uint32_t len, const uint64_t *entry);
int32_t wq_wait_queue_is_empty(uint32_t len, const uint64_t *entry);
int32_t wq_wait_queue_pend(uint32_t *len, uint64_t *entry, uint32_t id, uint32_t priority, uint32_t state);
int32_t wq_wait_queue_unpend_first(uint32_t *len, const uint64_t *entry, int32_t return_value, wq_woken *who);
int32_t wq_wait_queue_unpend_all(uint32_t *len, const uint64_t *entry, int32_t return_value, wq_woken *out,
                                 uint64_t out_len);
int32_t wq_wait_queue_remove(uint32_t *len, uint64_t *entry, uint32_t id);
bool wq_wait_queue_audit(uint32_t len, const uint64_t *entry);

static inline void wq_init(struct wq_wait_queue *q) { wq_wait_queue_new(&q->len); }
/* How many wait; WQ_EINVAL. */
static inline int32_t wq_len(const struct wq_wait_queue *q) { return wq_wait_queue_len(q->len, q->entry); }
/* 1, 0; WQ_EINVAL. */
static inline int32_t wq_is_empty(const struct wq_wait_queue *q) { return wq_wait_queue_is_empty(q->len, q->entry); }
/* WQ_WAITS: t, which runs, is in the queue behind all of equal or higher priority, and its state is blocked.
 * Else a refusal: WQ_EINVAL, WQ_EBUSY, WQ_ENOMEM. */
static inline int32_t wq_pend(struct wq_wait_queue *q, struct wq_thread *t)
{
    int32_t r = wq_wait_queue_pend(&q->len, q->entry, t->id, t->priority, t->state);
    if (r == WQ_WAITS)
        t->state = WQ_BLOCKED;
    return r;
}
/* 1: *who was the first and is to be made ready with return_value; 0: nobody waits; WQ_EINVAL. *who is written on 1 only. */
static inline int32_t wq_unpend_first(struct wq_wait_queue *q, int32_t return_value, wq_woken *who)
{
    return wq_wait_queue_unpend_first(&q->len, q->entry, return_value, who);
}
/* How many were woken: all, in the order of the queue, in out[0], out[1] and so on. WQ_EINVAL, also where
 * out_len is below their number. */
static inline int32_t wq_unpend_all(struct wq_wait_queue *q, int32_t return_value, wq_woken *out, uint64_t out_len)
{
    return wq_wait_queue_unpend_all(&q->len, q->entry, return_value, out, out_len);
}
/* WQ_OK: the thread is out of the queue, all others keep their order; WQ_ENOENT: it was not in it; WQ_EINVAL. */
static inline int32_t wq_remove(struct wq_wait_queue *q, uint32_t id)
{
    return wq_wait_queue_remove(&q->len, q->entry, id);
}
/* Whether the queue is well formed as a whole: its length, sorted by priority, priorities at most 31, no id twice. */
static inline bool wq_audit(const struct wq_wait_queue *q) { return wq_wait_queue_audit(q->len, q->entry); }

/* ---- Counting semaphore ------------------------------------------------------------------- */

struct wq_sem {
    uint32_t head[3]; /* count, limit, how many wait */
    uint64_t entry[WQ_MAX_WAITERS];
};

/* What a give did. The numbers are those of Gale's GiveDecision. */
enum wq_give { WQ_GIVE_WOKE = 0, WQ_GIVE_INCREMENTED = 1, WQ_GIVE_SATURATED = 2 };

int32_t wq_sem_init(uint32_t *head, uint32_t count, uint32_t limit);
int32_t wq_sem_give(uint32_t *head, const uint64_t *entry, wq_woken *who);
int32_t wq_sem_try_take(uint32_t *head, const uint64_t *entry);
int32_t wq_sem_take_blocking(uint32_t *head, uint64_t *entry, uint32_t id, uint32_t priority, uint32_t state);
int32_t wq_sem_reset(uint32_t *head, const uint64_t *entry, wq_woken *out, uint64_t out_len);
int64_t wq_sem_count_get(const uint32_t *head, const uint64_t *entry);
int64_t wq_sem_limit_get(const uint32_t *head, const uint64_t *entry);
int64_t wq_sem_num_waiters(const uint32_t *head, const uint64_t *entry);
bool wq_sem_audit(const uint32_t *head, const uint64_t *entry);

/* On plain numbers, whatever they are: what give and take would do.
 * WQ_EINVAL: limit 0, a count above the limit, or somebody waits while the count is above 0. Else enum wq_give. */
int32_t wq_sem_give_decide(uint32_t count, uint32_t limit, bool has_waiter);
/* WQ_EBUSY: the count is 0, and the caller does not wait. Else WQ_WAITS at 0, and WQ_OK above. */
int32_t wq_sem_take_decide(uint32_t count, bool is_no_wait);

/* WQ_OK; WQ_EINVAL: limit 0, or a count above it. */
static inline int32_t wq_k_sem_init(struct wq_sem *s, uint32_t count, uint32_t limit)
{
    return wq_sem_init(s->head, count, limit);
}
/* enum wq_give; *who is set exactly on WQ_GIVE_WOKE, and is to be made ready with result 0. WQ_EINVAL. */
static inline int32_t wq_k_sem_give(struct wq_sem *s, wq_woken *who) { return wq_sem_give(s->head, s->entry, who); }
/* WQ_OK: one was taken; WQ_EBUSY: there is none; WQ_EINVAL. */
static inline int32_t wq_k_sem_try_take(struct wq_sem *s) { return wq_sem_try_take(s->head, s->entry); }
/* WQ_OK: one was taken; WQ_WAITS: t waits now, and its state is blocked; WQ_EINVAL, WQ_EBUSY, WQ_ENOMEM. */
static inline int32_t wq_k_sem_take(struct wq_sem *s, struct wq_thread *t)
{
    int32_t r = wq_sem_take_blocking(s->head, s->entry, t->id, t->priority, t->state);
    if (r == WQ_WAITS)
        t->state = WQ_BLOCKED;
    return r;
}
/* How many were woken, each with WQ_EAGAIN, in the order of the queue; the count is 0. WQ_EINVAL, also where
 * out_len is below their number. */
static inline int32_t wq_k_sem_reset(struct wq_sem *s, wq_woken *out, uint64_t out_len)
{
    return wq_sem_reset(s->head, s->entry, out, out_len);
}
/* A thread's time is over: it leaves the queue. As wq_remove. */
static inline int32_t wq_k_sem_remove(struct wq_sem *s, uint32_t id)
{
    return wq_wait_queue_remove(&s->head[2], s->entry, id);
}
/* The number; WQ_EINVAL. */
static inline int64_t wq_k_sem_count_get(const struct wq_sem *s) { return wq_sem_count_get(s->head, s->entry); }
static inline int64_t wq_k_sem_limit_get(const struct wq_sem *s) { return wq_sem_limit_get(s->head, s->entry); }
static inline int64_t wq_k_sem_num_waiters(const struct wq_sem *s) { return wq_sem_num_waiters(s->head, s->entry); }
/* Whether the semaphore is well formed as a whole: its numbers, and its queue as for wq_audit. */
static inline bool wq_k_sem_audit(const struct wq_sem *s) { return wq_sem_audit(s->head, s->entry); }

/* ---- Mutex -------------------------------------------------------------------------------- */

struct wq_mutex {
    uint32_t head[4]; /* whether it is owned (0: no), the owner, the owner's locks, how many wait */
    uint64_t entry[WQ_MAX_WAITERS];
};

/* What an unlock did, in the order of Gale's UnlockResult: the owner still holds it; it is free; *who owns it now. */
enum wq_unlock { WQ_UNLOCK_RELEASED = 0, WQ_UNLOCK_UNLOCKED = 1, WQ_UNLOCK_TRANSFERRED = 2 };

/* What a lock is to do: the caller becomes the owner, with one lock; it waits (WQ_WAITS); it has one lock more. */
enum wq_lock { WQ_LOCK_ACQUIRE = 0, WQ_LOCK_PEND = 1, WQ_LOCK_REENTRANT = 2 };

int32_t wq_mutex_init(uint32_t *head);
int32_t wq_mutex_try_lock(uint32_t *head, const uint64_t *entry, uint32_t id);
int32_t wq_mutex_lock_blocking(uint32_t *head, uint64_t *entry, uint32_t id, uint32_t priority, uint32_t state);
int32_t wq_mutex_unlock(uint32_t *head, const uint64_t *entry, uint32_t id, wq_woken *who);
int32_t wq_mutex_is_locked(const uint32_t *head, const uint64_t *entry);
int64_t wq_mutex_lock_count_get(const uint32_t *head, const uint64_t *entry);
int64_t wq_mutex_num_waiters(const uint32_t *head, const uint64_t *entry);
int64_t wq_mutex_owner_get(const uint32_t *head, const uint64_t *entry);
bool wq_mutex_audit(const uint32_t *head, const uint64_t *entry);

/* On plain numbers, whatever they are: what lock and unlock would do.
 * WQ_EINVAL: an owner without a lock, or a lock without an owner. WQ_EOVERFLOW: its owner has 2^32 - 1 locks. WQ_EBUSY:
 * another owns it, and the caller does not wait. Else enum wq_lock. */
int32_t wq_mutex_lock_decide(uint32_t lock_count, bool owner_is_null, bool owner_is_current, bool is_no_wait);
/* WQ_EINVAL: nobody owns it, or an owner without a lock. WQ_EPERM: another owns it. Else WQ_UNLOCK_RELEASED, or
 * WQ_UNLOCK_UNLOCKED: the first that waits is to own it, if there is one. */
int32_t wq_mutex_unlock_decide(uint32_t lock_count, bool owner_is_null, bool owner_is_current);

/* WQ_OK: it is free. */
static inline int32_t wq_k_mutex_init(struct wq_mutex *m) { return wq_mutex_init(m->head); }
/* WQ_OK: the thread id owns it, with one lock more; WQ_EBUSY: another owns it; WQ_EOVERFLOW: the owner has 2^32 - 1
 * locks already; WQ_EINVAL. */
static inline int32_t wq_k_mutex_try_lock(struct wq_mutex *m, uint32_t id)
{
    return wq_mutex_try_lock(m->head, m->entry, id);
}
/* WQ_OK: t owns it, with one lock more; WQ_WAITS: t waits now, and its state is blocked; woken, it is the owner.
 * WQ_EINVAL, WQ_EBUSY (t waits already), WQ_EOVERFLOW, WQ_ENOMEM. */
static inline int32_t wq_k_mutex_lock(struct wq_mutex *m, struct wq_thread *t)
{
    int32_t r = wq_mutex_lock_blocking(m->head, m->entry, t->id, t->priority, t->state);
    if (r == WQ_WAITS)
        t->state = WQ_BLOCKED;
    return r;
}
/* enum wq_unlock; *who is set exactly on WQ_UNLOCK_TRANSFERRED, and is to be made ready with result 0: it is the owner.
 * WQ_EPERM: another owns it; WQ_EINVAL: nobody does, or malformed. */
static inline int32_t wq_k_mutex_unlock(struct wq_mutex *m, uint32_t id, wq_woken *who)
{
    return wq_mutex_unlock(m->head, m->entry, id, who);
}
/* A thread's time is over: it leaves the queue. As wq_remove. */
static inline int32_t wq_k_mutex_remove(struct wq_mutex *m, uint32_t id)
{
    return wq_wait_queue_remove(&m->head[3], m->entry, id);
}
/* 1, 0; WQ_EINVAL. */
static inline int32_t wq_k_mutex_is_locked(const struct wq_mutex *m) { return wq_mutex_is_locked(m->head, m->entry); }
/* The number; WQ_EINVAL. */
static inline int64_t wq_k_mutex_lock_count_get(const struct wq_mutex *m)
{
    return wq_mutex_lock_count_get(m->head, m->entry);
}
static inline int64_t wq_k_mutex_num_waiters(const struct wq_mutex *m) { return wq_mutex_num_waiters(m->head, m->entry); }
/* The id of the owner; WQ_ENOENT: nobody owns it; WQ_EINVAL. */
static inline int64_t wq_k_mutex_owner_get(const struct wq_mutex *m) { return wq_mutex_owner_get(m->head, m->entry); }
/* Whether the mutex is well formed as a whole: its numbers, its queue as for wq_audit, and the owner is not in it. */
static inline bool wq_k_mutex_audit(const struct wq_mutex *m) { return wq_mutex_audit(m->head, m->entry); }

/* ---- Condition variable ------------------------------------------------------------------- */

struct wq_condvar {
    uint32_t head[1]; /* how many wait */
    uint64_t entry[WQ_MAX_WAITERS];
};

int32_t wq_condvar_init(uint32_t *head);
int32_t wq_condvar_signal(uint32_t *head, const uint64_t *entry, wq_woken *who);
int32_t wq_condvar_broadcast(uint32_t *head, const uint64_t *entry, wq_woken *out, uint64_t out_len);
int32_t wq_condvar_wait_blocking(uint32_t *head, uint64_t *entry, uint32_t *mutex_head, const uint64_t *mutex_entry,
                                 uint32_t id, uint32_t priority, uint32_t state, wq_woken *who);
int64_t wq_condvar_num_waiters(const uint32_t *head, const uint64_t *entry);
int32_t wq_condvar_has_waiters(const uint32_t *head, const uint64_t *entry);
bool wq_condvar_audit(const uint32_t *head, const uint64_t *entry);

/* On plain numbers: what signal, broadcast and wait would do. */
int32_t wq_condvar_signal_decide(bool has_waiter);           /* 1: the first is to be woken; 0 */
int32_t wq_condvar_broadcast_decide(uint32_t num_waiters);   /* how many are to be woken; WQ_EINVAL: above 64 */
int32_t wq_condvar_wait_decide(bool is_no_wait);             /* WQ_WAITS; WQ_EAGAIN */

/* WQ_OK: nobody waits. */
static inline int32_t wq_k_condvar_init(struct wq_condvar *c) { return wq_condvar_init(c->head); }
/* 1: *who was the first and is to be made ready with result 0; 0: nobody waits; WQ_EINVAL. *who is written on 1 only. */
static inline int32_t wq_k_condvar_signal(struct wq_condvar *c, wq_woken *who)
{
    return wq_condvar_signal(c->head, c->entry, who);
}
/* How many were woken, each with result 0, in the order of the queue. WQ_EINVAL, also where out_len is below their
 * number. */
static inline int32_t wq_k_condvar_broadcast(struct wq_condvar *c, wq_woken *out, uint64_t out_len)
{
    return wq_condvar_broadcast(c->head, c->entry, out, out_len);
}
/* t gives the mutex back and waits, both or neither. WQ_WAITS: the mutex is free; WQ_UNLOCK_TRANSFERRED (2): *who owns
 * the mutex now and is to be made ready with result 0. On both t waits, and its state is blocked. Woken, it has to lock
 * the mutex again. The mutex's refusals come first: WQ_EINVAL, also where nobody owns it; WQ_EPERM: another owns it;
 * WQ_EDEADLK: t has locked it more than once, so that it would keep it. Then those of a wait. */
static inline int32_t wq_k_condvar_wait(struct wq_condvar *c, struct wq_mutex *m, struct wq_thread *t, wq_woken *who)
{
    int32_t r =
        wq_condvar_wait_blocking(c->head, c->entry, m->head, m->entry, t->id, t->priority, t->state, who);
    if (r > 0)
        t->state = WQ_BLOCKED;
    return r;
}
/* A thread's time is over: it leaves the queue. As wq_remove. */
static inline int32_t wq_k_condvar_remove(struct wq_condvar *c, uint32_t id)
{
    return wq_wait_queue_remove(&c->head[0], c->entry, id);
}
/* The number; WQ_EINVAL. */
static inline int64_t wq_k_condvar_num_waiters(const struct wq_condvar *c)
{
    return wq_condvar_num_waiters(c->head, c->entry);
}
/* 1, 0; WQ_EINVAL. */
static inline int32_t wq_k_condvar_has_waiters(const struct wq_condvar *c)
{
    return wq_condvar_has_waiters(c->head, c->entry);
}
/* As wq_audit. */
static inline bool wq_k_condvar_audit(const struct wq_condvar *c) { return wq_condvar_audit(c->head, c->entry); }

/* ---- Futex -------------------------------------------------------------------------------- */

struct wq_futex {
    uint32_t head[2]; /* the value, how many wait */
    uint64_t entry[WQ_MAX_WAITERS];
};

int32_t wq_futex_init(uint32_t *head, uint32_t val);
int32_t wq_futex_wait(uint32_t *head, uint64_t *entry, uint32_t expected, uint32_t id, uint32_t priority,
                      uint32_t state);
int32_t wq_futex_wake(uint32_t *head, const uint64_t *entry, bool wake_all, wq_woken *out, uint64_t out_len);
int32_t wq_futex_val_set(uint32_t *head, const uint64_t *entry, uint32_t val);
int64_t wq_futex_val_get(const uint32_t *head, const uint64_t *entry);
int64_t wq_futex_num_waiters(const uint32_t *head, const uint64_t *entry);
bool wq_futex_audit(const uint32_t *head, const uint64_t *entry);

/* On plain numbers: what wait and wake would do. */
int32_t wq_futex_wait_decide(uint32_t val, uint32_t expected); /* WQ_WAITS; WQ_EAGAIN */
/* How many are to be woken, and *remaining is how many stay; WQ_EINVAL: num_waiters is above 64, and *remaining stays. */
int32_t wq_futex_wake_decide(uint32_t num_waiters, bool wake_all, uint32_t *remaining);

/* WQ_OK. */
static inline int32_t wq_k_futex_init(struct wq_futex *f, uint32_t val) { return wq_futex_init(f->head, val); }
/* WQ_WAITS: the value is the expected one; t waits now, and its state is blocked. WQ_EAGAIN: the value is another.
 * WQ_EINVAL, WQ_EBUSY, WQ_ENOMEM. */
static inline int32_t wq_k_futex_wait(struct wq_futex *f, uint32_t expected, struct wq_thread *t)
{
    int32_t r = wq_futex_wait(f->head, f->entry, expected, t->id, t->priority, t->state);
    if (r == WQ_WAITS)
        t->state = WQ_BLOCKED;
    return r;
}
/* How many were woken, the first or all, each with result 0, in the order of the queue. WQ_EINVAL, also where out_len
 * is below their number. */
static inline int32_t wq_k_futex_wake(struct wq_futex *f, bool wake_all, wq_woken *out, uint64_t out_len)
{
    return wq_futex_wake(f->head, f->entry, wake_all, out, out_len);
}
/* WQ_OK: the value is val, and nobody is woken; WQ_EINVAL. */
static inline int32_t wq_k_futex_val_set(struct wq_futex *f, uint32_t val)
{
    return wq_futex_val_set(f->head, f->entry, val);
}
/* A thread's time is over: it leaves the queue. As wq_remove. */
static inline int32_t wq_k_futex_remove(struct wq_futex *f, uint32_t id)
{
    return wq_wait_queue_remove(&f->head[1], f->entry, id);
}
/* The number; WQ_EINVAL. */
static inline int64_t wq_k_futex_val_get(const struct wq_futex *f) { return wq_futex_val_get(f->head, f->entry); }
static inline int64_t wq_k_futex_num_waiters(const struct wq_futex *f) { return wq_futex_num_waiters(f->head, f->entry); }
/* As wq_audit. */
static inline bool wq_k_futex_audit(const struct wq_futex *f) { return wq_futex_audit(f->head, f->entry); }

/* ---- Ring buffer -------------------------------------------------------------------------- */

/* Bytes, first in first out, in a buffer that the caller lends: its first `capacity` bytes are the ring. */
struct wq_ring_buf {
    uint32_t head[3]; /* capacity, the place of the first byte, how many bytes it holds */
    uint8_t *buf;
    uint64_t buf_len;
};

int32_t wq_ring_buf_init(uint32_t *head, const uint8_t *buf, uint64_t buf_len, uint32_t capacity);
int32_t wq_ring_buf_put(uint32_t *head, uint8_t *buf, uint64_t buf_len, uint8_t value);
int32_t wq_ring_buf_get(uint32_t *head, const uint8_t *buf, uint64_t buf_len, uint8_t *value);
int64_t wq_ring_buf_put_n(uint32_t *head, uint8_t *buf, uint64_t buf_len, const uint8_t *src, uint64_t src_len);
int64_t wq_ring_buf_get_n(uint32_t *head, const uint8_t *buf, uint64_t buf_len, uint8_t *out, uint64_t out_len);
int32_t wq_ring_buf_peek_at(const uint32_t *head, const uint8_t *buf, uint64_t buf_len, uint32_t idx, uint8_t *value);
int32_t wq_ring_buf_reset(uint32_t *head, const uint8_t *buf, uint64_t buf_len);
int64_t wq_ring_buf_size_get(const uint32_t *head, const uint8_t *buf, uint64_t buf_len);
int64_t wq_ring_buf_space_get(const uint32_t *head, const uint8_t *buf, uint64_t buf_len);
int64_t wq_ring_buf_capacity_get(const uint32_t *head, const uint8_t *buf, uint64_t buf_len);
int32_t wq_ring_buf_is_empty(const uint32_t *head, const uint8_t *buf, uint64_t buf_len);
int32_t wq_ring_buf_is_full(const uint32_t *head, const uint8_t *buf, uint64_t buf_len);
int64_t wq_ring_buf_head_get(const uint32_t *head, const uint8_t *buf, uint64_t buf_len);
int64_t wq_ring_buf_tail_get(const uint32_t *head, const uint8_t *buf, uint64_t buf_len);

/* On plain numbers, for counters that run freely through 2^32.
 * How many bytes can be claimed in one piece, and *offset is where that piece starts; a size of 0: 0, and *offset is 0.
 * It does not look at how many bytes the ring holds. docs/DIFFERENCES.md: when this agrees with the object. */
uint32_t wq_ring_buf_claim_decide(uint32_t head, uint32_t base, uint32_t buf_size, uint32_t requested,
                                  uint32_t *offset);
/* Whether so many were claimed and not yet finished; how many are free; how many it holds. */
bool wq_ring_buf_finish_decide(uint32_t head, uint32_t tail, uint32_t size);
uint32_t wq_ring_buf_space_get_decide(uint32_t put_head, uint32_t get_tail, uint32_t buf_size);
uint32_t wq_ring_buf_size_get_decide(uint32_t put_tail, uint32_t get_head);

/* WQ_OK: it is empty; WQ_EINVAL: capacity 0, or above the buffer's length, and r stays. */
static inline int32_t wq_k_ring_buf_init(struct wq_ring_buf *r, uint8_t *buf, uint64_t buf_len, uint32_t capacity)
{
    int32_t code = wq_ring_buf_init(r->head, buf, buf_len, capacity);
    if (code == WQ_OK) {
        r->buf = buf;
        r->buf_len = buf_len;
    }
    return code;
}
/* WQ_OK: the byte is behind those that it held; WQ_EAGAIN: it is full; WQ_EINVAL. */
static inline int32_t wq_k_ring_buf_put(struct wq_ring_buf *r, uint8_t value)
{
    return wq_ring_buf_put(r->head, r->buf, r->buf_len, value);
}
/* WQ_OK: *value was the first; WQ_EAGAIN: it is empty; WQ_EINVAL. *value is written on WQ_OK only. */
static inline int32_t wq_k_ring_buf_get(struct wq_ring_buf *r, uint8_t *value)
{
    return wq_ring_buf_get(r->head, r->buf, r->buf_len, value);
}
/* How many bytes went in, the first of src: the smaller of src_len and what is free. WQ_EINVAL. */
static inline int64_t wq_k_ring_buf_put_n(struct wq_ring_buf *r, const uint8_t *src, uint64_t src_len)
{
    return wq_ring_buf_put_n(r->head, r->buf, r->buf_len, src, src_len);
}
/* How many bytes came out, into the first of out: the smaller of out_len and what it held. WQ_EINVAL. */
static inline int64_t wq_k_ring_buf_get_n(struct wq_ring_buf *r, uint8_t *out, uint64_t out_len)
{
    return wq_ring_buf_get_n(r->head, r->buf, r->buf_len, out, out_len);
}
/* WQ_OK: *value is the byte at idx, 0 being the first; WQ_EINVAL: it holds no more than idx, or malformed. */
static inline int32_t wq_k_ring_buf_peek_at(const struct wq_ring_buf *r, uint32_t idx, uint8_t *value)
{
    return wq_ring_buf_peek_at(r->head, r->buf, r->buf_len, idx, value);
}
/* WQ_OK: it is empty, and its first byte will stand at the buffer's start; WQ_EINVAL. */
static inline int32_t wq_k_ring_buf_reset(struct wq_ring_buf *r)
{
    return wq_ring_buf_reset(r->head, r->buf, r->buf_len);
}
/* How many bytes it holds, has free, can hold; where the first stands, and where the next will go. WQ_EINVAL. */
static inline int64_t wq_k_ring_buf_size_get(const struct wq_ring_buf *r)
{
    return wq_ring_buf_size_get(r->head, r->buf, r->buf_len);
}
static inline int64_t wq_k_ring_buf_space_get(const struct wq_ring_buf *r)
{
    return wq_ring_buf_space_get(r->head, r->buf, r->buf_len);
}
static inline int64_t wq_k_ring_buf_capacity_get(const struct wq_ring_buf *r)
{
    return wq_ring_buf_capacity_get(r->head, r->buf, r->buf_len);
}
static inline int64_t wq_k_ring_buf_head_get(const struct wq_ring_buf *r)
{
    return wq_ring_buf_head_get(r->head, r->buf, r->buf_len);
}
static inline int64_t wq_k_ring_buf_tail_get(const struct wq_ring_buf *r)
{
    return wq_ring_buf_tail_get(r->head, r->buf, r->buf_len);
}
/* 1, 0; WQ_EINVAL. */
static inline int32_t wq_k_ring_buf_is_empty(const struct wq_ring_buf *r)
{
    return wq_ring_buf_is_empty(r->head, r->buf, r->buf_len);
}
static inline int32_t wq_k_ring_buf_is_full(const struct wq_ring_buf *r)
{
    return wq_ring_buf_is_full(r->head, r->buf, r->buf_len);
}

/* ---- Message queue ------------------------------------------------------------------------ */

/* Messages of one size, first in first out, in a buffer that the caller lends: its first max_msgs * msg_size bytes. */
struct wq_msgq {
    uint32_t head[4]; /* how many messages it can hold, the slot of the first, how many it holds, a message's size */
    uint8_t *buf;
    uint64_t buf_len;
};

/* What a put is to do: store the message; hand it to the first reader that waits, and no number changes; wait. */
enum wq_put { WQ_PUT_STORE = 0, WQ_PUT_WAKE_READER = 1, WQ_PUT_PEND = 2 };

/* What a get is to do: read the first message; read it, and then store the message of the first writer that waits
 * (a put of its own); wait. */
enum wq_get { WQ_GET_READ = 0, WQ_GET_WAKE_WRITER = 1, WQ_GET_PEND = 2 };

int32_t wq_msgq_init(uint32_t *head, const uint8_t *buf, uint64_t buf_len, uint32_t msg_size, uint32_t max_msgs);
int32_t wq_msgq_put(uint32_t *head, uint8_t *buf, uint64_t buf_len, const uint8_t *msg, uint64_t msg_len);
int32_t wq_msgq_put_front(uint32_t *head, uint8_t *buf, uint64_t buf_len, const uint8_t *msg, uint64_t msg_len);
int32_t wq_msgq_get(uint32_t *head, const uint8_t *buf, uint64_t buf_len, uint8_t *out, uint64_t out_len);
int32_t wq_msgq_peek_at(const uint32_t *head, const uint8_t *buf, uint64_t buf_len, uint32_t idx, uint8_t *out,
                        uint64_t out_len);
int64_t wq_msgq_purge(uint32_t *head, const uint8_t *buf, uint64_t buf_len);
int64_t wq_msgq_num_free_get(const uint32_t *head, const uint8_t *buf, uint64_t buf_len);
int64_t wq_msgq_num_used_get(const uint32_t *head, const uint8_t *buf, uint64_t buf_len);
int64_t wq_msgq_msg_size_get(const uint32_t *head, const uint8_t *buf, uint64_t buf_len);
int64_t wq_msgq_max_msgs_get(const uint32_t *head, const uint8_t *buf, uint64_t buf_len);
int64_t wq_msgq_read_idx_get(const uint32_t *head, const uint8_t *buf, uint64_t buf_len);
int64_t wq_msgq_write_idx_get(const uint32_t *head, const uint8_t *buf, uint64_t buf_len);
int32_t wq_msgq_is_full(const uint32_t *head, const uint8_t *buf, uint64_t buf_len);
int32_t wq_msgq_is_empty(const uint32_t *head, const uint8_t *buf, uint64_t buf_len);

/* On plain numbers: what put, get, put_front and peek_at would do, and the new numbers. They are written unless the
 * answer is below 0. WQ_EINVAL: no room for a message at all, an index or a count that is too large, a reader that
 * waits while there are messages (handing it a new one would overtake them), a writer that waits while there is room. */
int32_t wq_msgq_put_decide(uint32_t write_idx, uint32_t used_msgs, uint32_t max_msgs, bool has_waiter, bool is_no_wait,
                           uint32_t *new_write_idx, uint32_t *new_used); /* enum wq_put; WQ_ENOMSG, WQ_EINVAL */
int32_t wq_msgq_get_decide(uint32_t read_idx, uint32_t used_msgs, uint32_t max_msgs, bool has_waiter, bool is_no_wait,
                           uint32_t *new_read_idx, uint32_t *new_used); /* enum wq_get; WQ_ENOMSG, WQ_EINVAL */
int32_t wq_msgq_put_front_decide(uint32_t read_idx, uint32_t used_msgs, uint32_t max_msgs, uint32_t *new_read_idx,
                                 uint32_t *new_used); /* WQ_OK; WQ_ENOMSG, WQ_EINVAL */
int32_t wq_msgq_peek_at_decide(uint32_t read_idx, uint32_t used_msgs, uint32_t max_msgs, uint32_t idx,
                               uint32_t *slot_idx); /* WQ_OK; WQ_ENOMSG, WQ_EINVAL */

/* WQ_OK: it is empty; WQ_EINVAL: a size or a number of 0, a product above 2^32 - 1 or above the buffer's length, and q
 * stays. */
static inline int32_t wq_k_msgq_init(struct wq_msgq *q, uint8_t *buf, uint64_t buf_len, uint32_t msg_size,
                                     uint32_t max_msgs)
{
    int32_t code = wq_msgq_init(q->head, buf, buf_len, msg_size, max_msgs);
    if (code == WQ_OK) {
        q->buf = buf;
        q->buf_len = buf_len;
    }
    return code;
}
/* WQ_OK: the message is behind, or before, those that it held; WQ_EINVAL, also for a message of another length;
 * WQ_ENOMSG: it is full. */
static inline int32_t wq_k_msgq_put(struct wq_msgq *q, const uint8_t *msg, uint64_t msg_len)
{
    return wq_msgq_put(q->head, q->buf, q->buf_len, msg, msg_len);
}
static inline int32_t wq_k_msgq_put_front(struct wq_msgq *q, const uint8_t *msg, uint64_t msg_len)
{
    return wq_msgq_put_front(q->head, q->buf, q->buf_len, msg, msg_len);
}
/* WQ_OK: out is the first message, which is gone; WQ_EINVAL, also for an out of another length; WQ_ENOMSG: it is empty. */
static inline int32_t wq_k_msgq_get(struct wq_msgq *q, uint8_t *out, uint64_t out_len)
{
    return wq_msgq_get(q->head, q->buf, q->buf_len, out, out_len);
}
/* WQ_OK: out is the message at idx, 0 being the first; WQ_EINVAL as for get; WQ_ENOMSG: it holds no more than idx. */
static inline int32_t wq_k_msgq_peek_at(const struct wq_msgq *q, uint32_t idx, uint8_t *out, uint64_t out_len)
{
    return wq_msgq_peek_at(q->head, q->buf, q->buf_len, idx, out, out_len);
}
/* How many messages it held; it is empty. WQ_EINVAL. */
static inline int64_t wq_k_msgq_purge(struct wq_msgq *q) { return wq_msgq_purge(q->head, q->buf, q->buf_len); }
/* The number; WQ_EINVAL. */
static inline int64_t wq_k_msgq_num_free_get(const struct wq_msgq *q)
{
    return wq_msgq_num_free_get(q->head, q->buf, q->buf_len);
}
static inline int64_t wq_k_msgq_num_used_get(const struct wq_msgq *q)
{
    return wq_msgq_num_used_get(q->head, q->buf, q->buf_len);
}
static inline int64_t wq_k_msgq_msg_size_get(const struct wq_msgq *q)
{
    return wq_msgq_msg_size_get(q->head, q->buf, q->buf_len);
}
static inline int64_t wq_k_msgq_max_msgs_get(const struct wq_msgq *q)
{
    return wq_msgq_max_msgs_get(q->head, q->buf, q->buf_len);
}
static inline int64_t wq_k_msgq_read_idx_get(const struct wq_msgq *q)
{
    return wq_msgq_read_idx_get(q->head, q->buf, q->buf_len);
}
static inline int64_t wq_k_msgq_write_idx_get(const struct wq_msgq *q)
{
    return wq_msgq_write_idx_get(q->head, q->buf, q->buf_len);
}
/* 1, 0; WQ_EINVAL. */
static inline int32_t wq_k_msgq_is_full(const struct wq_msgq *q) { return wq_msgq_is_full(q->head, q->buf, q->buf_len); }
static inline int32_t wq_k_msgq_is_empty(const struct wq_msgq *q)
{
    return wq_msgq_is_empty(q->head, q->buf, q->buf_len);
}

/* ---- Pipe --------------------------------------------------------------------------------- */

/* A ring of bytes that can be closed and reset. */
struct wq_pipe {
    uint32_t head[4]; /* size, the place of the first byte, how many bytes it holds, flags */
    uint8_t *buf;
    uint64_t buf_len;
};

#define WQ_FLAG_OPEN 1u
#define WQ_FLAG_RESET 2u

/* What a write is to do: store the bytes; the same, and wake the first reader that waits, to read (if the pipe is empty,
 * hand the bytes to it, and no number changes); wait, behind the writers that wait. */
enum wq_write { WQ_WRITE_OK = 0, WQ_WRITE_WAKE_READER = 1, WQ_WRITE_PEND = 2 };

/* What a read is to do: take the bytes; take them, and then let the writers that wait write, the first first, until none
 * waits or there is no room; wait. */
enum wq_read { WQ_READ_OK = 0, WQ_READ_WAKE_WRITER = 1, WQ_READ_PEND = 2 };

int32_t wq_pipe_init(uint32_t *head, const uint8_t *buf, uint64_t buf_len, uint32_t size);
int64_t wq_pipe_write(uint32_t *head, uint8_t *buf, uint64_t buf_len, const uint8_t *src, uint64_t src_len);
int64_t wq_pipe_write_all(uint32_t *head, uint8_t *buf, uint64_t buf_len, const uint8_t *src, uint64_t src_len);
int64_t wq_pipe_read(uint32_t *head, const uint8_t *buf, uint64_t buf_len, uint8_t *out, uint64_t out_len);
int64_t wq_pipe_read_all(uint32_t *head, const uint8_t *buf, uint64_t buf_len, uint8_t *out, uint64_t out_len);
int32_t wq_pipe_reset(uint32_t *head, const uint8_t *buf, uint64_t buf_len);
int32_t wq_pipe_close(uint32_t *head, const uint8_t *buf, uint64_t buf_len);
int32_t wq_pipe_clear_reset(uint32_t *head, const uint8_t *buf, uint64_t buf_len);
int64_t wq_pipe_space_get(const uint32_t *head, const uint8_t *buf, uint64_t buf_len);
int64_t wq_pipe_data_get(const uint32_t *head, const uint8_t *buf, uint64_t buf_len);
int64_t wq_pipe_size(const uint32_t *head, const uint8_t *buf, uint64_t buf_len);
int32_t wq_pipe_is_empty(const uint32_t *head, const uint8_t *buf, uint64_t buf_len);
int32_t wq_pipe_is_full(const uint32_t *head, const uint8_t *buf, uint64_t buf_len);
int32_t wq_pipe_is_open(const uint32_t *head, const uint8_t *buf, uint64_t buf_len);
int32_t wq_pipe_is_resetting(const uint32_t *head, const uint8_t *buf, uint64_t buf_len);

/* On plain numbers: what write and read would do, how many bytes move, and how many the pipe then holds. They are
 * written unless the answer is below 0. Where the pipe would answer WQ_EAGAIN, the answer is to wait. WQ_EINVAL: a size
 * of 0, a number above it, flags above 3. Who waits is asked last: if bytes move, somebody that waits on the other side
 * is to be woken. With a reader that waits at an empty pipe, request_len is to be at most what that reader asks for. A
 * write while other writers wait is to wait behind them, whatever the answer, unless it is below 0. */
int32_t wq_pipe_write_decide(uint32_t used, uint32_t size, uint32_t flags, uint32_t request_len, bool has_reader,
                             uint32_t *actual_bytes, uint32_t *new_used); /* enum wq_write; refusals as write */
int32_t wq_pipe_write_all_decide(uint32_t used, uint32_t size, uint32_t flags, uint32_t request_len, bool has_reader,
                                 uint32_t *actual_bytes, uint32_t *new_used); /* enum wq_write; refusals as write_all */
int32_t wq_pipe_read_decide(uint32_t used, uint32_t size, uint32_t flags, uint32_t request_len, bool has_writer,
                            uint32_t *actual_bytes, uint32_t *new_used); /* enum wq_read; refusals as read */
int32_t wq_pipe_read_all_decide(uint32_t used, uint32_t size, uint32_t flags, uint32_t request_len, bool has_writer,
                                uint32_t *actual_bytes, uint32_t *new_used); /* enum wq_read; refusals as read_all */

/* WQ_OK: it is open and empty; WQ_EINVAL: size 0, or above the buffer's length, and p stays. */
static inline int32_t wq_k_pipe_init(struct wq_pipe *p, uint8_t *buf, uint64_t buf_len, uint32_t size)
{
    int32_t code = wq_pipe_init(p->head, buf, buf_len, size);
    if (code == WQ_OK) {
        p->buf = buf;
        p->buf_len = buf_len;
    }
    return code;
}
/* How many bytes went in, the first of src: the smaller of src_len and what is free. Refusals, in this order: WQ_EINVAL;
 * WQ_ECANCELED: resetting; WQ_EPIPE: closed; WQ_ENOMSG: src_len is 0; WQ_EAGAIN: full. */
static inline int64_t wq_k_pipe_write(struct wq_pipe *p, const uint8_t *src, uint64_t src_len)
{
    return wq_pipe_write(p->head, p->buf, p->buf_len, src, src_len);
}
/* src_len: all bytes of src went in. Refusals as write, which change nothing; then WQ_EINVAL: src_len is above the pipe's
 * size, so that they never fit; WQ_EAGAIN: they do not fit now. */
static inline int64_t wq_k_pipe_write_all(struct wq_pipe *p, const uint8_t *src, uint64_t src_len)
{
    return wq_pipe_write_all(p->head, p->buf, p->buf_len, src, src_len);
}
/* How many bytes came out, into the first of out: the smaller of out_len and what it held. Refusals, in this order:
 * WQ_EINVAL; WQ_ECANCELED: resetting; WQ_ENOMSG: out_len is 0; if empty, WQ_EPIPE: closed, or WQ_EAGAIN: open. */
static inline int64_t wq_k_pipe_read(struct wq_pipe *p, uint8_t *out, uint64_t out_len)
{
    return wq_pipe_read(p->head, p->buf, p->buf_len, out, out_len);
}
/* out_len: out was filled. Refusals, in this order, which change nothing: WQ_EINVAL; WQ_ECANCELED: resetting; WQ_ENOMSG:
 * out_len is 0; if it holds fewer bytes, WQ_EPIPE: closed; WQ_EINVAL: out_len is above its size; WQ_EAGAIN. */
static inline int64_t wq_k_pipe_read_all(struct wq_pipe *p, uint8_t *out, uint64_t out_len)
{
    return wq_pipe_read_all(p->head, p->buf, p->buf_len, out, out_len);
}
/* WQ_OK: it is empty and resetting; open or closed as it was. WQ_EINVAL. */
static inline int32_t wq_k_pipe_reset(struct wq_pipe *p) { return wq_pipe_reset(p->head, p->buf, p->buf_len); }
/* WQ_OK: it is closed and not resetting; its bytes stay and can be read. WQ_EINVAL. */
static inline int32_t wq_k_pipe_close(struct wq_pipe *p) { return wq_pipe_close(p->head, p->buf, p->buf_len); }
/* WQ_OK: it is not resetting. WQ_EINVAL. */
static inline int32_t wq_k_pipe_clear_reset(struct wq_pipe *p)
{
    return wq_pipe_clear_reset(p->head, p->buf, p->buf_len);
}
/* The number; WQ_EINVAL. */
static inline int64_t wq_k_pipe_space_get(const struct wq_pipe *p) { return wq_pipe_space_get(p->head, p->buf, p->buf_len); }
static inline int64_t wq_k_pipe_data_get(const struct wq_pipe *p) { return wq_pipe_data_get(p->head, p->buf, p->buf_len); }
static inline int64_t wq_k_pipe_size(const struct wq_pipe *p) { return wq_pipe_size(p->head, p->buf, p->buf_len); }
/* 1, 0; WQ_EINVAL. */
static inline int32_t wq_k_pipe_is_empty(const struct wq_pipe *p) { return wq_pipe_is_empty(p->head, p->buf, p->buf_len); }
static inline int32_t wq_k_pipe_is_full(const struct wq_pipe *p) { return wq_pipe_is_full(p->head, p->buf, p->buf_len); }
static inline int32_t wq_k_pipe_is_open(const struct wq_pipe *p) { return wq_pipe_is_open(p->head, p->buf, p->buf_len); }
static inline int32_t wq_k_pipe_is_resetting(const struct wq_pipe *p)
{
    return wq_pipe_is_resetting(p->head, p->buf, p->buf_len);
}

/* ---- Stack -------------------------------------------------------------------------------- */

/* Words, last in first out, in memory that the caller lends: its first `capacity` words. */
struct wq_stack {
    uint32_t head[2]; /* how many words it can hold, how many it holds */
    uint64_t *word;
    uint64_t word_len;
};

/* What a push is to do: store the word; hand it to the first that waits, and no number changes. */
enum wq_push { WQ_PUSH_STORE = 0, WQ_PUSH_WAKE_WAITER = 1 };

int32_t wq_stack_init(uint32_t *head, const uint64_t *word, uint64_t word_len, uint32_t capacity);
int32_t wq_stack_push(uint32_t *head, uint64_t *word, uint64_t word_len, uint64_t data);
int32_t wq_stack_pop(uint32_t *head, const uint64_t *word, uint64_t word_len, uint64_t *data);
int64_t wq_stack_num_free(const uint32_t *head, const uint64_t *word, uint64_t word_len);
int64_t wq_stack_num_used(const uint32_t *head, const uint64_t *word, uint64_t word_len);
int64_t wq_stack_capacity(const uint32_t *head, const uint64_t *word, uint64_t word_len);
int32_t wq_stack_is_full(const uint32_t *head, const uint64_t *word, uint64_t word_len);
int32_t wq_stack_is_empty(const uint32_t *head, const uint64_t *word, uint64_t word_len);

/* On plain numbers: what push and pop would do, and the new count, which is written unless the answer is below 0.
 * For push, WQ_EINVAL: capacity 0, a count above it, or somebody waits while there are words. */
int32_t wq_stack_push_decide(uint32_t count, uint32_t capacity, bool has_waiter,
                             uint32_t *new_count); /* enum wq_push; WQ_ENOMEM, WQ_EINVAL */
int32_t wq_stack_pop_decide(uint32_t count, bool is_no_wait, uint32_t *new_count); /* WQ_OK, WQ_WAITS; WQ_EBUSY */

/* WQ_OK: it is empty; WQ_EINVAL: capacity 0, or above the memory's length, and s stays. */
static inline int32_t wq_k_stack_init(struct wq_stack *s, uint64_t *word, uint64_t word_len, uint32_t capacity)
{
    int32_t code = wq_stack_init(s->head, word, word_len, capacity);
    if (code == WQ_OK) {
        s->word = word;
        s->word_len = word_len;
    }
    return code;
}
/* WQ_OK: data is on top; WQ_ENOMEM: it is full; WQ_EINVAL. */
static inline int32_t wq_k_stack_push(struct wq_stack *s, uint64_t data)
{
    return wq_stack_push(s->head, s->word, s->word_len, data);
}
/* WQ_OK: *data was on top; WQ_EBUSY: it is empty; WQ_EINVAL. *data is written on WQ_OK only. */
static inline int32_t wq_k_stack_pop(struct wq_stack *s, uint64_t *data)
{
    return wq_stack_pop(s->head, s->word, s->word_len, data);
}
/* The number; WQ_EINVAL. */
static inline int64_t wq_k_stack_num_free(const struct wq_stack *s)
{
    return wq_stack_num_free(s->head, s->word, s->word_len);
}
static inline int64_t wq_k_stack_num_used(const struct wq_stack *s)
{
    return wq_stack_num_used(s->head, s->word, s->word_len);
}
static inline int64_t wq_k_stack_capacity(const struct wq_stack *s)
{
    return wq_stack_capacity(s->head, s->word, s->word_len);
}
/* 1, 0; WQ_EINVAL. */
static inline int32_t wq_k_stack_is_full(const struct wq_stack *s) { return wq_stack_is_full(s->head, s->word, s->word_len); }
static inline int32_t wq_k_stack_is_empty(const struct wq_stack *s)
{
    return wq_stack_is_empty(s->head, s->word, s->word_len);
}

/* ---- Memory slab -------------------------------------------------------------------------- */

/* Blocks of one size. Beside the blocks the caller lends a word for each: link[i] is 0 exactly if block i is out. No
 * block is handed out twice, whatever the links hold; links that were overwritten can leave a slab that answers WQ_EINVAL
 * from then on. The blocks themselves are never touched: block i starts at i times the size. */
struct wq_mem_slab {
    uint32_t head[4]; /* how many blocks, a block's size, how many are out, the block that is given next */
    uint32_t *link;
    uint64_t link_len;
};

/* What a free is to do: take the block back; hand it to the first that waits, and no number changes. */
enum wq_free { WQ_FREE_FREE = 0, WQ_FREE_WAKE_THREAD = 1 };

int32_t wq_mem_slab_init(uint32_t *head, uint32_t *link, uint64_t link_len, uint32_t block_size, uint32_t num_blocks);
int64_t wq_mem_slab_alloc(uint32_t *head, uint32_t *link, uint64_t link_len);
int32_t wq_mem_slab_free(uint32_t *head, uint32_t *link, uint64_t link_len, uint32_t block);
int64_t wq_mem_slab_num_used_get(const uint32_t *head, const uint32_t *link, uint64_t link_len);
int64_t wq_mem_slab_num_free_get(const uint32_t *head, const uint32_t *link, uint64_t link_len);
int64_t wq_mem_slab_num_blocks_get(const uint32_t *head, const uint32_t *link, uint64_t link_len);
int64_t wq_mem_slab_block_size_get(const uint32_t *head, const uint32_t *link, uint64_t link_len);
int32_t wq_mem_slab_is_full(const uint32_t *head, const uint32_t *link, uint64_t link_len);
int32_t wq_mem_slab_is_empty(const uint32_t *head, const uint32_t *link, uint64_t link_len);

/* On plain numbers: what alloc and free would do, and how many are then out, which is written unless the answer is
 * below 0. */
int32_t wq_mem_slab_alloc_decide(uint32_t num_used, uint32_t num_blocks, bool is_no_wait,
                                 uint32_t *new_used); /* WQ_OK, WQ_WAITS; WQ_ENOMEM; WQ_EINVAL: no blocks, or more out */
int32_t wq_mem_slab_free_decide(uint32_t num_used, bool has_waiter,
                                uint32_t *new_used); /* enum wq_free; WQ_EINVAL: nothing is out */

/* WQ_OK: all blocks are free; WQ_EINVAL: a size or a number of 0, or fewer links than blocks, and all stays. */
static inline int32_t wq_k_mem_slab_init(struct wq_mem_slab *s, uint32_t *link, uint64_t link_len, uint32_t block_size,
                                         uint32_t num_blocks)
{
    int32_t code = wq_mem_slab_init(s->head, link, link_len, block_size, num_blocks);
    if (code == WQ_OK) {
        s->link = link;
        s->link_len = link_len;
    }
    return code;
}
/* The number of a block that was not out, from 0 on, which is out now; WQ_ENOMEM: all are out; WQ_EINVAL. */
static inline int64_t wq_k_mem_slab_alloc(struct wq_mem_slab *s) { return wq_mem_slab_alloc(s->head, s->link, s->link_len); }
/* WQ_OK: the block was out and is not; WQ_EINVAL: it was not out, there is no such block, or malformed. */
static inline int32_t wq_k_mem_slab_free(struct wq_mem_slab *s, uint32_t block)
{
    return wq_mem_slab_free(s->head, s->link, s->link_len, block);
}
/* How many are out, are free, there are; a block's size. WQ_EINVAL. */
static inline int64_t wq_k_mem_slab_num_used_get(const struct wq_mem_slab *s)
{
    return wq_mem_slab_num_used_get(s->head, s->link, s->link_len);
}
static inline int64_t wq_k_mem_slab_num_free_get(const struct wq_mem_slab *s)
{
    return wq_mem_slab_num_free_get(s->head, s->link, s->link_len);
}
static inline int64_t wq_k_mem_slab_num_blocks_get(const struct wq_mem_slab *s)
{
    return wq_mem_slab_num_blocks_get(s->head, s->link, s->link_len);
}
static inline int64_t wq_k_mem_slab_block_size_get(const struct wq_mem_slab *s)
{
    return wq_mem_slab_block_size_get(s->head, s->link, s->link_len);
}
/* 1, 0; WQ_EINVAL. Full: all blocks are out; empty: none is. */
static inline int32_t wq_k_mem_slab_is_full(const struct wq_mem_slab *s)
{
    return wq_mem_slab_is_full(s->head, s->link, s->link_len);
}
static inline int32_t wq_k_mem_slab_is_empty(const struct wq_mem_slab *s)
{
    return wq_mem_slab_is_empty(s->head, s->link, s->link_len);
}

/* ---- Event flags -------------------------------------------------------------------------- */

/* 32 flags, one in each bit. */
struct wq_event {
    uint32_t head[1]; /* the flags */
};

/* For what a thread waits: for any flag of a set, or for all of them. */
enum wq_wait_type { WQ_WAIT_ANY = 0, WQ_WAIT_ALL = 1 };

/* What a wait is to do: the condition holds; the caller waits (WQ_WAITS). */
enum wq_event_wait { WQ_EVENT_WAIT_MATCHED = 0, WQ_EVENT_WAIT_PEND = 1 };

int32_t wq_event_init(uint32_t *head);
int64_t wq_event_post(uint32_t *head, uint32_t new_events);
int64_t wq_event_set(uint32_t *head, uint32_t new_events);
int64_t wq_event_set_masked(uint32_t *head, uint32_t new_events, uint32_t mask);
int64_t wq_event_clear(uint32_t *head, uint32_t clear_events);
int32_t wq_event_wait_check_any(const uint32_t *head, uint32_t desired);
int32_t wq_event_wait_check_all(const uint32_t *head, uint32_t desired);
int64_t wq_event_events_get(const uint32_t *head);

/* On plain numbers: what a wait would do. *matched is written unless the answer is below 0: the flags that are desired
 * and there, or 0 if the caller waits. WQ_EBUSY: the condition does not hold, and the caller does not wait; WQ_EINVAL: a
 * wait type above 1. To wait for all of no flags matches, with no flags; to wait for any of none never does. */
int32_t wq_event_wait_decide(uint32_t current_events, uint32_t desired, uint32_t wait_type, bool is_no_wait,
                             uint32_t *matched); /* enum wq_event_wait; WQ_EBUSY, WQ_EINVAL */
/* The flags of current_events, those of the mask replaced by new_events: as set_masked. */
uint32_t wq_event_post_decide(uint32_t current_events, uint32_t new_events, uint32_t mask);

/* WQ_OK: no flag is there. */
static inline int32_t wq_k_event_init(struct wq_event *e) { return wq_event_init(e->head); }
/* The flags after it: new_events are there too. */
static inline int64_t wq_k_event_post(struct wq_event *e, uint32_t new_events) { return wq_event_post(e->head, new_events); }
/* The flags before it; they are new_events now. */
static inline int64_t wq_k_event_set(struct wq_event *e, uint32_t new_events) { return wq_event_set(e->head, new_events); }
/* The flags before it; those of the mask are as in new_events now. */
static inline int64_t wq_k_event_set_masked(struct wq_event *e, uint32_t new_events, uint32_t mask)
{
    return wq_event_set_masked(e->head, new_events, mask);
}
/* The flags after it: clear_events are gone. */
static inline int64_t wq_k_event_clear(struct wq_event *e, uint32_t clear_events)
{
    return wq_event_clear(e->head, clear_events);
}
/* 1: one of the desired flags is there; 0. */
static inline int32_t wq_k_event_wait_check_any(const struct wq_event *e, uint32_t desired)
{
    return wq_event_wait_check_any(e->head, desired);
}
/* 1: all of the desired flags are there; 0. */
static inline int32_t wq_k_event_wait_check_all(const struct wq_event *e, uint32_t desired)
{
    return wq_event_wait_check_all(e->head, desired);
}
/* The flags. */
static inline int64_t wq_k_event_events_get(const struct wq_event *e) { return wq_event_events_get(e->head); }

/* ---- Timer -------------------------------------------------------------------------------- */

struct wq_timer {
    uint32_t head[3]; /* how often it expired since it was read, its period, whether it runs (0: no) */
};

int32_t wq_timer_init(uint32_t *head, uint32_t period);
int32_t wq_timer_start(uint32_t *head);
int32_t wq_timer_stop(uint32_t *head);
int64_t wq_timer_expire(uint32_t *head);
int64_t wq_timer_status_get(uint32_t *head);
int64_t wq_timer_status_peek(const uint32_t *head);
int64_t wq_timer_period_get(const uint32_t *head);
int32_t wq_timer_is_running(const uint32_t *head);

/* On plain numbers: 1 if it is periodic, 0 if not, and *new_status is one more; WQ_EOVERFLOW: the status is 2^32 - 1, and
 * *new_status stays. */
int32_t wq_timer_expire_decide(uint32_t status, uint32_t period, uint32_t *new_status);

/* WQ_OK: it does not run and never expired. */
static inline int32_t wq_k_timer_init(struct wq_timer *t, uint32_t period) { return wq_timer_init(t->head, period); }
/* WQ_OK: it runs, or does not, and the count is 0. The period stays. */
static inline int32_t wq_k_timer_start(struct wq_timer *t) { return wq_timer_start(t->head); }
static inline int32_t wq_k_timer_stop(struct wq_timer *t) { return wq_timer_stop(t->head); }
/* How often it expired, this time too; WQ_EOVERFLOW: 2^32 - 1 times already. It is not asked whether it runs. */
static inline int64_t wq_k_timer_expire(struct wq_timer *t) { return wq_timer_expire(t->head); }
/* How often it expired since it was read last; the count is 0 now. */
static inline int64_t wq_k_timer_status_get(struct wq_timer *t) { return wq_timer_status_get(t->head); }
/* The same, and the count stays; the period. */
static inline int64_t wq_k_timer_status_peek(const struct wq_timer *t) { return wq_timer_status_peek(t->head); }
static inline int64_t wq_k_timer_period_get(const struct wq_timer *t) { return wq_timer_period_get(t->head); }
/* 1, 0. */
static inline int32_t wq_k_timer_is_running(const struct wq_timer *t) { return wq_timer_is_running(t->head); }

/* ---- Timeout ------------------------------------------------------------------------------ */

/* A deadline in ticks, and a clock. */
struct wq_timeout {
    uint64_t head[3]; /* the deadline, whether it is active (0: no), the clock */
};

#define WQ_K_FOREVER_TICKS UINT64_MAX /* never */
#define WQ_K_NO_WAIT_TICKS UINT64_C(0) /* at once */

int32_t wq_timeout_init(uint64_t *head, uint64_t current_tick);
int32_t wq_timeout_add(uint64_t *head, uint64_t duration, uint64_t *deadline);
int32_t wq_timeout_add_absolute(uint64_t *head, uint64_t deadline);
int32_t wq_timeout_add_forever(uint64_t *head);
int32_t wq_timeout_add_no_wait(uint64_t *head);
int32_t wq_timeout_abort(uint64_t *head);
int32_t wq_timeout_announce(uint64_t *head, uint64_t ticks);
int32_t wq_timeout_remaining(const uint64_t *head, uint64_t *ticks);
int32_t wq_timeout_expires(const uint64_t *head, uint64_t *tick);
int32_t wq_timeout_is_active(const uint64_t *head);
int32_t wq_timeout_is_forever(const uint64_t *head);
int32_t wq_timeout_is_no_wait(const uint64_t *head);
int32_t wq_timeout_now(const uint64_t *head, uint64_t *tick);
int32_t wq_timeout_timepoint_calc(const uint64_t *head, uint64_t duration, uint64_t *timepoint);
int32_t wq_timeout_timepoint_timeout(const uint64_t *head, uint64_t timepoint, uint64_t *ticks);

/* On plain numbers. WQ_OK, and *deadline is the clock plus the duration; WQ_EINVAL: that would reach 2^64 - 1. */
int32_t wq_timeout_add_decide(uint64_t current_tick, uint64_t duration, uint64_t *deadline);
bool wq_timeout_abort_decide(bool is_active); /* whether there is something to abort */
/* 1: it fires; 0: not; *new_tick is the clock then. WQ_EINVAL: the clock would reach 2^64 - 1, or an active deadline lies
 * behind it without being 0; *new_tick stays. */
int32_t wq_timeout_announce_decide(uint64_t current_tick, uint64_t ticks, uint64_t deadline, bool active,
                                   uint64_t *new_tick);

/* WQ_OK: it is not active, and its clock is at current_tick; WQ_EINVAL: that is 2^64 - 1. */
static inline int32_t wq_k_timeout_init(struct wq_timeout *t, uint64_t current_tick)
{
    return wq_timeout_init(t->head, current_tick);
}
/* WQ_OK: it is active, with the deadline *deadline, the clock plus the duration. WQ_EINVAL: malformed; WQ_EBUSY: it is
 * active already; WQ_EINVAL: the sum would reach 2^64 - 1. */
static inline int32_t wq_k_timeout_add(struct wq_timeout *t, uint64_t duration, uint64_t *deadline)
{
    return wq_timeout_add(t->head, duration, deadline);
}
/* WQ_OK: it is active with this deadline; WQ_EINVAL: malformed; WQ_EBUSY; WQ_EINVAL: behind the clock, or 2^64 - 1. */
static inline int32_t wq_k_timeout_add_absolute(struct wq_timeout *t, uint64_t deadline)
{
    return wq_timeout_add_absolute(t->head, deadline);
}
/* WQ_OK: it is active and never fires, or fires at the next announcement; WQ_EINVAL, WQ_EBUSY. */
static inline int32_t wq_k_timeout_add_forever(struct wq_timeout *t) { return wq_timeout_add_forever(t->head); }
static inline int32_t wq_k_timeout_add_no_wait(struct wq_timeout *t) { return wq_timeout_add_no_wait(t->head); }
/* WQ_OK: it was active and is not; WQ_EINVAL: it was not, or malformed. */
static inline int32_t wq_k_timeout_abort(struct wq_timeout *t) { return wq_timeout_abort(t->head); }
/* 1: the clock moved, and it fired: it was active, not never, and due; it is not active now. 0: the clock moved.
 * WQ_EINVAL: the clock would reach 2^64 - 1, and stays; or malformed. */
static inline int32_t wq_k_timeout_announce(struct wq_timeout *t, uint64_t ticks)
{
    return wq_timeout_announce(t->head, ticks);
}
/* WQ_OK, and the ticks until it fires: 0 if it is not active or due, 2^64 - 1 if never. WQ_EINVAL. */
static inline int32_t wq_k_timeout_remaining(const struct wq_timeout *t, uint64_t *ticks)
{
    return wq_timeout_remaining(t->head, ticks);
}
/* WQ_OK, and the deadline; the clock, if it is not active. WQ_EINVAL. */
static inline int32_t wq_k_timeout_expires(const struct wq_timeout *t, uint64_t *tick)
{
    return wq_timeout_expires(t->head, tick);
}
/* 1, 0; WQ_EINVAL. Forever and no wait speak of the deadline, active or not. */
static inline int32_t wq_k_timeout_is_active(const struct wq_timeout *t) { return wq_timeout_is_active(t->head); }
static inline int32_t wq_k_timeout_is_forever(const struct wq_timeout *t) { return wq_timeout_is_forever(t->head); }
static inline int32_t wq_k_timeout_is_no_wait(const struct wq_timeout *t) { return wq_timeout_is_no_wait(t->head); }
/* WQ_OK, and the clock. WQ_EINVAL. */
static inline int32_t wq_k_timeout_now(const struct wq_timeout *t, uint64_t *tick) { return wq_timeout_now(t->head, tick); }
/* WQ_OK, and the clock plus the duration; WQ_EINVAL: that would reach 2^64 - 1, or malformed. */
static inline int32_t wq_k_timeout_timepoint_calc(const struct wq_timeout *t, uint64_t duration, uint64_t *timepoint)
{
    return wq_timeout_timepoint_calc(t->head, duration, timepoint);
}
/* WQ_OK, and the ticks from the clock to the timepoint: 0 if that is behind, 2^64 - 1 if that is never. WQ_EINVAL. */
static inline int32_t wq_k_timeout_timepoint_timeout(const struct wq_timeout *t, uint64_t timepoint, uint64_t *ticks)
{
    return wq_timeout_timepoint_timeout(t->head, timepoint, ticks);
}

#ifdef __cplusplus
}
#endif

#endif
