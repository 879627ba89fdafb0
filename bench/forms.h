/* What threads.c calls, for each of the three ways in which a form keeps its threads. The build defines one:
 *   FORM_ARRAY  the interface of include/waitqueue.h: ours, and C under the same names (c_array.c)
 *   FORM_LIST   threads linked into a list, as in Zephyr (c_list.c)
 *   FORM_GALE   Gale's Rust (gale.rs)
 *
 * The functions here are inline; they hand the work to the form, which is in a translation unit of its own. A form that
 * lacks a kind of operation leaves out its functions and its HAVE_.
 *
 * SPDX-License-Identifier: Apache-2.0
 */
#ifndef FORMS_H
#define FORMS_H

#include "bench.h"
#include "waitqueue.h"

#if defined FORM_ARRAY

typedef struct wq_sem form_sem;
typedef struct wq_mutex form_mutex;
typedef struct wq_condvar form_condvar;
typedef wq_woken form_thread; /* how the caller names a thread */

static inline form_thread form_thread_new(uint32_t id)
{
    return id;
}

static inline uint32_t form_thread_id(form_thread t)
{
    return wq_woken_id(t);
}

static inline int32_t form_sem_init(form_sem *s, uint32_t count, uint32_t limit)
{
    return wq_sem_init(s->head, count, limit);
}

/* Here and below, *who is set if a thread is woken. */
static inline int32_t form_sem_give(form_sem *s, form_thread *who)
{
    return wq_sem_give(s->head, s->entry, who);
}

static inline int32_t form_sem_take(form_sem *s, form_thread t, uint32_t priority)
{
    return wq_sem_take_blocking(s->head, s->entry, form_thread_id(t), priority, WQ_RUNNING);
}

/* The sum over all that are woken, in their order. */
static inline uint32_t mix_all(uint32_t sum, const wq_woken *who, int32_t woken)
{
    for (int32_t i = 0; i < woken; i++)
        sum = mix(sum, wq_woken_id(who[i]), wq_woken_result(who[i]));
    return sum;
}

#define HAVE_SEM_RESET
static inline uint32_t form_sem_reset(form_sem *s, uint32_t sum)
{
    wq_woken who[WQ_MAX_WAITERS];
    return mix_all(sum, who, wq_sem_reset(s->head, s->entry, who, WQ_MAX_WAITERS));
}

static inline int32_t form_mutex_init(form_mutex *m)
{
    return wq_mutex_init(m->head);
}

static inline int32_t form_mutex_lock(form_mutex *m, form_thread t, uint32_t priority)
{
    return wq_mutex_lock_blocking(m->head, m->entry, form_thread_id(t), priority, WQ_RUNNING);
}

static inline int32_t form_mutex_unlock(form_mutex *m, form_thread t, form_thread *who)
{
    return wq_mutex_unlock(m->head, m->entry, form_thread_id(t), who);
}

static inline int32_t form_condvar_init(form_condvar *c)
{
    return wq_condvar_init(c->head);
}

static inline int32_t form_condvar_signal(form_condvar *c, form_thread *who)
{
    return wq_condvar_signal(c->head, c->entry, who);
}

static inline int32_t form_condvar_wait(form_condvar *c, form_mutex *m, form_thread t, uint32_t priority,
                                        form_thread *who)
{
    return wq_condvar_wait_blocking(c->head, c->entry, m->head, m->entry, form_thread_id(t), priority, WQ_RUNNING, who);
}

#define HAVE_CONDVAR_BROADCAST
static inline uint32_t form_condvar_broadcast(form_condvar *c, uint32_t sum)
{
    wq_woken who[WQ_MAX_WAITERS];
    return mix_all(sum, who, wq_condvar_broadcast(c->head, c->entry, who, WQ_MAX_WAITERS));
}

typedef struct wq_wait_queue form_queue;
typedef struct wq_futex form_futex;

#define HAVE_QUEUE
static inline void form_queue_init(form_queue *q)
{
    wq_wait_queue_new(&q->len);
}

static inline int32_t form_queue_pend(form_queue *q, form_thread t, uint32_t priority)
{
    return wq_wait_queue_pend(&q->len, q->entry, form_thread_id(t), priority, WQ_RUNNING);
}

static inline int32_t form_queue_unpend_first(form_queue *q, form_thread *who)
{
    return wq_wait_queue_unpend_first(&q->len, q->entry, WQ_OK, who);
}

static inline int32_t form_queue_remove(form_queue *q, form_thread t)
{
    return wq_wait_queue_remove(&q->len, q->entry, form_thread_id(t));
}

#define HAVE_FUTEX
static inline int32_t form_futex_init(form_futex *f, uint32_t val)
{
    return wq_futex_init(f->head, val);
}

static inline int32_t form_futex_wait(form_futex *f, uint32_t expected, form_thread t, uint32_t priority)
{
    return wq_futex_wait(f->head, f->entry, expected, form_thread_id(t), priority, WQ_RUNNING);
}

/* Of the first. */
static inline int32_t form_futex_wake(form_futex *f, form_thread *who)
{
    return wq_futex_wake(f->head, f->entry, false, who, 1);
}

static inline int32_t form_futex_set(form_futex *f, uint32_t val)
{
    return wq_futex_val_set(f->head, f->entry, val);
}

#elif defined FORM_LIST

struct link {
    struct link *next, *prev;
};

struct list_thread {
    struct link link; /* first, so that a link in a queue is its thread */
    uint32_t id;
    uint32_t priority;
    int32_t return_value;
};

struct list_queue {
    struct link ends;
    uint32_t len;
};

struct list_sem {
    uint32_t count, limit;
    struct list_queue queue;
};

struct list_mutex {
    struct list_thread *owner; /* NULL: it is free */
    uint32_t lock_count;
    struct list_queue queue;
};

struct list_condvar {
    struct list_queue queue;
};

struct list_futex {
    uint32_t val;
    struct list_queue queue;
};

/* The answers are those of the functions of waitqueue.h. */
int32_t list_sem_init(struct list_sem *s, uint32_t count, uint32_t limit);
int32_t list_sem_give(struct list_sem *s, struct list_thread **who);
int32_t list_sem_take_blocking(struct list_sem *s, struct list_thread *t, uint32_t state);
int32_t list_sem_reset(struct list_sem *s, struct list_thread **out, uint64_t out_len);

int32_t list_mutex_init(struct list_mutex *m);
int32_t list_mutex_lock_blocking(struct list_mutex *m, struct list_thread *t, uint32_t state);
int32_t list_mutex_unlock(struct list_mutex *m, struct list_thread *t, struct list_thread **who);

int32_t list_condvar_init(struct list_condvar *c);
int32_t list_condvar_signal(struct list_condvar *c, struct list_thread **who);
int32_t list_condvar_broadcast(struct list_condvar *c, struct list_thread **out, uint64_t out_len);
int32_t list_condvar_wait_blocking(struct list_condvar *c, struct list_mutex *m, struct list_thread *t, uint32_t state,
                                   struct list_thread **who);

void list_queue_init(struct list_queue *q);
int32_t list_queue_pend(struct list_queue *q, struct list_thread *t, uint32_t state);
int32_t list_queue_unpend_first(struct list_queue *q, int32_t return_value, struct list_thread **who);
int32_t list_queue_remove(struct list_queue *q, struct list_thread *t);

int32_t list_futex_init(struct list_futex *f, uint32_t val);
int32_t list_futex_wait(struct list_futex *f, uint32_t expected, struct list_thread *t, uint32_t state);
int32_t list_futex_wake(struct list_futex *f, bool wake_all, struct list_thread **out, uint64_t out_len);
int32_t list_futex_val_set(struct list_futex *f, uint32_t val);

typedef struct list_queue form_queue;
typedef struct list_futex form_futex;
typedef struct list_sem form_sem;
typedef struct list_mutex form_mutex;
typedef struct list_condvar form_condvar;
typedef struct list_thread *form_thread;

static inline form_thread form_thread_new(uint32_t id)
{
    static struct list_thread all[4096];
    all[id].id = id;
    return &all[id];
}

static inline uint32_t form_thread_id(form_thread t)
{
    return t->id;
}

static inline int32_t form_sem_init(form_sem *s, uint32_t count, uint32_t limit)
{
    return list_sem_init(s, count, limit);
}

static inline int32_t form_sem_give(form_sem *s, form_thread *who)
{
    return list_sem_give(s, who);
}

static inline int32_t form_sem_take(form_sem *s, form_thread t, uint32_t priority)
{
    t->priority = priority;
    return list_sem_take_blocking(s, t, WQ_RUNNING);
}

static inline uint32_t mix_all(uint32_t sum, const form_thread *who, int32_t woken)
{
    for (int32_t i = 0; i < woken; i++)
        sum = mix(sum, who[i]->id, who[i]->return_value);
    return sum;
}

#define HAVE_SEM_RESET
static inline uint32_t form_sem_reset(form_sem *s, uint32_t sum)
{
    form_thread who[WQ_MAX_WAITERS];
    return mix_all(sum, who, list_sem_reset(s, who, WQ_MAX_WAITERS));
}

static inline int32_t form_mutex_init(form_mutex *m)
{
    return list_mutex_init(m);
}

static inline int32_t form_mutex_lock(form_mutex *m, form_thread t, uint32_t priority)
{
    t->priority = priority;
    return list_mutex_lock_blocking(m, t, WQ_RUNNING);
}

static inline int32_t form_mutex_unlock(form_mutex *m, form_thread t, form_thread *who)
{
    return list_mutex_unlock(m, t, who);
}

static inline int32_t form_condvar_init(form_condvar *c)
{
    return list_condvar_init(c);
}

static inline int32_t form_condvar_signal(form_condvar *c, form_thread *who)
{
    return list_condvar_signal(c, who);
}

static inline int32_t form_condvar_wait(form_condvar *c, form_mutex *m, form_thread t, uint32_t priority,
                                        form_thread *who)
{
    t->priority = priority;
    return list_condvar_wait_blocking(c, m, t, WQ_RUNNING, who);
}

#define HAVE_CONDVAR_BROADCAST
static inline uint32_t form_condvar_broadcast(form_condvar *c, uint32_t sum)
{
    form_thread who[WQ_MAX_WAITERS];
    return mix_all(sum, who, list_condvar_broadcast(c, who, WQ_MAX_WAITERS));
}

#define HAVE_QUEUE
static inline void form_queue_init(form_queue *q)
{
    list_queue_init(q);
}

static inline int32_t form_queue_pend(form_queue *q, form_thread t, uint32_t priority)
{
    t->priority = priority;
    return list_queue_pend(q, t, WQ_RUNNING);
}

static inline int32_t form_queue_unpend_first(form_queue *q, form_thread *who)
{
    return list_queue_unpend_first(q, WQ_OK, who);
}

static inline int32_t form_queue_remove(form_queue *q, form_thread t)
{
    return list_queue_remove(q, t);
}

#define HAVE_FUTEX
static inline int32_t form_futex_init(form_futex *f, uint32_t val)
{
    return list_futex_init(f, val);
}

static inline int32_t form_futex_wait(form_futex *f, uint32_t expected, form_thread t, uint32_t priority)
{
    t->priority = priority;
    return list_futex_wait(f, expected, t, WQ_RUNNING);
}

static inline int32_t form_futex_wake(form_futex *f, form_thread *who)
{
    return list_futex_wake(f, false, who, 1);
}

static inline int32_t form_futex_set(form_futex *f, uint32_t val)
{
    return list_futex_val_set(f, val);
}

#elif defined FORM_GALE

/* Room for any of Gale's objects; gale.rs sees to it that it is enough. */
typedef struct {
    uint64_t words[130];
} gale_object;

typedef gale_object form_sem;
typedef gale_object form_mutex;
typedef gale_object form_condvar;
typedef wq_woken form_thread;

int32_t gale_sem_init(form_sem *s, uint32_t count, uint32_t limit);
int32_t gale_sem_give(form_sem *s, wq_woken *who);
int32_t gale_sem_take(form_sem *s, uint32_t id, uint32_t priority);

int32_t gale_mutex_init(form_mutex *m);
int32_t gale_mutex_lock(form_mutex *m, uint32_t id, uint32_t priority);
int32_t gale_mutex_unlock(form_mutex *m, uint32_t id, wq_woken *who);

int32_t gale_condvar_init(form_condvar *c);
int32_t gale_condvar_signal(form_condvar *c, wq_woken *who);
int32_t gale_condvar_wait(form_condvar *c, form_mutex *m, uint32_t id, uint32_t priority, wq_woken *who);

static inline form_thread form_thread_new(uint32_t id)
{
    return id;
}

static inline uint32_t form_thread_id(form_thread t)
{
    return wq_woken_id(t);
}

static inline int32_t form_sem_init(form_sem *s, uint32_t count, uint32_t limit)
{
    return gale_sem_init(s, count, limit);
}

static inline int32_t form_sem_give(form_sem *s, form_thread *who)
{
    return gale_sem_give(s, who);
}

static inline int32_t form_sem_take(form_sem *s, form_thread t, uint32_t priority)
{
    return gale_sem_take(s, form_thread_id(t), priority);
}

static inline int32_t form_mutex_init(form_mutex *m)
{
    return gale_mutex_init(m);
}

static inline int32_t form_mutex_lock(form_mutex *m, form_thread t, uint32_t priority)
{
    return gale_mutex_lock(m, form_thread_id(t), priority);
}

static inline int32_t form_mutex_unlock(form_mutex *m, form_thread t, form_thread *who)
{
    return gale_mutex_unlock(m, form_thread_id(t), who);
}

static inline int32_t form_condvar_init(form_condvar *c)
{
    return gale_condvar_init(c);
}

static inline int32_t form_condvar_signal(form_condvar *c, form_thread *who)
{
    return gale_condvar_signal(c, who);
}

static inline int32_t form_condvar_wait(form_condvar *c, form_mutex *m, form_thread t, uint32_t priority,
                                        form_thread *who)
{
    return gale_condvar_wait(c, m, form_thread_id(t), priority, who);
}

/* No reset and no broadcast: Gale's do not say whom they woke, so there is nothing to compare. */

#else
#error "no form chosen"
#endif

#endif
