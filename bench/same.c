/* Holds C with all refusals against ours: both are called with the same random numbers on the same random memory, right
 * and malformed, and must answer and leave the same. The build names the functions in C c_wq_.. . On two kinds of memory
 * the contract says more than C does, so that they are not tried: queues that are not sorted, or hold a thread twice; and
 * an owned mutex whose word for that is not 1.
 *
 *   same TIMES
 *
 * SPDX-License-Identifier: Apache-2.0
 */
#include <stdio.h>
#include <stdlib.h>
#include <string.h>
#include "bench.h"
#include "waitqueue.h"

enum { BYTES = 64, WORDS = 8, LINKS = 8 };

struct state {
    uint32_t head[4], other[4]; /* of an object, and of the mutex beside it */
    uint64_t time[3];
    uint64_t entry[WQ_MAX_WAITERS + 1], other_entry[WQ_MAX_WAITERS + 1];
    uint8_t buf[BYTES], msg[BYTES], out[BYTES];
    uint64_t word[WORDS], data;
    uint32_t link[LINKS];
    wq_woken who[WQ_MAX_WAITERS + 1];
    uint64_t deadline;
    uint32_t first, second; /* what a decision writes */
};

static struct state ours, theirs, before;
static struct tally {
    const char *name;
    unsigned long good, refused;
} tallies[64];

static uint32_t random_word(void)
{
    static uint64_t state = 88172645463325252u;
    state ^= state << 13;
    state ^= state >> 7;
    state ^= state << 17;
    return (uint32_t)(state >> 32);
}

static uint32_t below(uint32_t n)
{
    return random_word() % n;
}

/* Small mostly, and the numbers around which the tests change their mind. */
static uint32_t number(void)
{
    static const uint32_t some[] = {31, 32, 33, 63, 64, 65, UINT32_MAX - 1, UINT32_MAX};
    uint32_t k = below(20);
    return k < COUNT_OF(some) ? some[k] : k < 18 ? below(9) : random_word();
}

static uint64_t tick(void)
{
    uint32_t k = below(8);
    return k == 0 ? UINT64_MAX : k == 1 ? UINT64_MAX - below(4) : below(6);
}

/* A queue of len threads: their priorities fall towards the first, which stands last. */
static void fill(uint64_t *entry, uint32_t len)
{
    uint32_t priority = 31, first = below(4);
    for (uint32_t i = 0; i < WQ_MAX_WAITERS + 1; i++) {
        if (priority > 0 && below(3) == 0)
            priority -= below(priority) / 4 + 1;
        entry[i] = i < len ? (uint64_t)priority << 32 | (first + i * 5) % 71 : random_word();
    }
}

static void prepare(struct state *s, uint32_t len)
{
    for (size_t i = 0; i < sizeof *s; i++)
        ((uint8_t *)s)[i] = (uint8_t)below(256);
    for (int i = 0; i < 4; i++) {
        s->head[i] = below(3) == 0 ? len : below(3) == 0 ? below(2) : number();
        s->other[i] = below(3) == 0 ? below(2) : number();
    }
    s->other[0] = s->other[0] != 0;
    for (int i = 0; i < 3; i++)
        s->time[i] = tick();
    for (int i = 0; i < LINKS; i++)
        s->link[i] = below(3) == 0 ? 0 : below(LINKS + 2);
    fill(s->entry, len);
    fill(s->other_entry, s->other[3]);
}

static void compare(const char *name, int64_t x, int64_t y)
{
    if (x != y || memcmp(&ours, &theirs, sizeof ours) != 0) {
        fprintf(stderr, "same: %s: ours answers %lld, C %lld\n", name, (long long)x, (long long)y);
        for (size_t i = 0; i < sizeof ours / 4; i++)
            if (((uint32_t *)&ours)[i] != ((uint32_t *)&theirs)[i])
                fprintf(stderr, "  word %zu: %#x became %#x, %#x\n", i, ((uint32_t *)&before)[i], ((uint32_t *)&ours)[i],
                        ((uint32_t *)&theirs)[i]);
        for (int i = 0; i < 4; i++)
            fprintf(stderr, "  head %u, time %llu\n", before.head[i], (unsigned long long)before.time[i % 3]);
        exit(1);
    }
    struct tally *t = tallies;
    while (t->name != NULL && strcmp(t->name, name) != 0)
        t++;
    t->name = name;
    if (x < 0)
        t->refused++;
    else
        t->good++;
}

/* What is read of s is of ours first and then of theirs. */
#define TRY(name, ...)                                 \
    do {                                               \
        extern __typeof__(wq_##name) c_wq_##name;      \
        ours = theirs = before;                        \
        struct state *s = &ours;                       \
        int64_t x = wq_##name(__VA_ARGS__);            \
        s = &theirs;                                   \
        int64_t y = c_wq_##name(__VA_ARGS__);          \
        compare(#name, x, y);                          \
    } while (0)

static void once(void)
{
    uint32_t len = below(4) == 0 ? below(WQ_MAX_WAITERS + 1) : below(5);
    prepare(&before, len);
    uint32_t id = below(72), priority = below(4) == 0 ? number() : below(32), state = below(3) == 0 ? below(5) : WQ_RUNNING;
    uint32_t a = number(), b = number(), c = number();
    uint32_t out_len = below(2) == 0 ? below(4) : WQ_MAX_WAITERS, n = below(BYTES + 1), m = below(3) == 0 ? below(BYTES + 1) : before.head[3];
    uint32_t words = below(WORDS + 1), links = below(LINKS + 1);
    uint64_t ticks = tick();
    bool p = below(2), q = below(2);
    if (m > BYTES)
        m = BYTES;

    /* a queue is as long as it says, or longer than it can be */
    for (int i = 0; i < 4; i++)
        if (before.head[i] <= WQ_MAX_WAITERS && before.head[i] > len && below(2) == 0)
            before.head[i] = len;
    struct state kept = before;
    if (before.head[0] <= WQ_MAX_WAITERS)
        fill(before.entry, before.head[0]);
    TRY(wait_queue_pend, &s->head[0], s->entry, id, priority, state);
    TRY(wait_queue_unpend_first, &s->head[0], s->entry, (int32_t)a, s->who);
    TRY(wait_queue_remove, &s->head[0], s->entry, id);
    TRY(condvar_signal, s->head, s->entry, s->who);
    TRY(condvar_broadcast, s->head, s->entry, s->who, out_len);
    TRY(condvar_wait_blocking, s->head, s->entry, s->other, s->other_entry, p ? id : s->other[1], priority, state, s->who);
    before = kept;
    if (before.head[1] <= WQ_MAX_WAITERS)
        fill(before.entry, before.head[1]);
    TRY(futex_wait, s->head, s->entry, p ? a : s->head[0], id, priority, state);
    TRY(futex_wake, s->head, s->entry, p, s->who, out_len);
    TRY(futex_val_set, s->head, s->entry, a);
    before = kept;
    if (before.head[2] <= WQ_MAX_WAITERS)
        fill(before.entry, before.head[2]);
    TRY(sem_init, s->head, a, b);
    TRY(sem_give, s->head, s->entry, s->who);
    TRY(sem_try_take, s->head, s->entry);
    TRY(sem_take_blocking, s->head, s->entry, id, priority, state);
    TRY(sem_reset, s->head, s->entry, s->who, out_len);
    before = kept;
    before.head[0] = before.head[0] != 0;
    if (before.head[3] <= WQ_MAX_WAITERS)
        fill(before.entry, before.head[3]);
    TRY(mutex_try_lock, s->head, s->entry, p ? id : s->head[1]);
    TRY(mutex_lock_blocking, s->head, s->entry, p ? id : s->head[1], priority, state);
    TRY(mutex_unlock, s->head, s->entry, p ? id : s->head[1], s->who);
    before = kept;

    TRY(ring_buf_init, s->head, s->buf, n, a);
    TRY(ring_buf_put_n, s->head, s->buf, n, s->msg, m);
    TRY(ring_buf_get_n, s->head, s->buf, n, s->out, m);
    TRY(pipe_init, s->head, s->buf, n, a);
    TRY(pipe_write, s->head, s->buf, n, s->msg, m);
    TRY(pipe_read, s->head, s->buf, n, s->out, m);
    TRY(msgq_init, s->head, s->buf, n, a, b);
    TRY(msgq_put, s->head, s->buf, n, s->msg, m);
    TRY(msgq_get, s->head, s->buf, n, s->out, m);
    TRY(stack_init, s->head, s->word, words, a);
    TRY(stack_push, s->head, s->word, words, ticks);
    TRY(stack_pop, s->head, s->word, words, &s->data);
    TRY(mem_slab_init, s->head, s->link, links, a, b);
    TRY(mem_slab_alloc, s->head, s->link, links);
    TRY(mem_slab_free, s->head, s->link, links, a);

    TRY(event_post, s->head, a);
    TRY(event_set, s->head, a);
    TRY(event_clear, s->head, a);
    TRY(event_wait_check_any, s->head, a);
    TRY(event_wait_check_all, s->head, a);
    TRY(timer_init, s->head, a);
    TRY(timer_start, s->head);
    TRY(timer_stop, s->head);
    TRY(timer_expire, s->head);
    TRY(timer_status_get, s->head);
    TRY(timeout_init, s->time, ticks);
    TRY(timeout_add, s->time, ticks, &s->deadline);
    TRY(timeout_abort, s->time);
    TRY(timeout_announce, s->time, ticks);
    TRY(msgq_put_decide, a, b, c, p, q, &s->first, &s->second);
    TRY(msgq_get_decide, a, b, c, p, q, &s->first, &s->second);
}

int main(int argc, char **argv)
{
    unsigned long good = 0, refused = 0;
    for (long i = argc > 1 ? atol(argv[1]) : 20000; i > 0; i--)
        once();
    for (const struct tally *t = tallies; t->name != NULL; t++) {
        if (t->good == 0) {
            fprintf(stderr, "same: no call of %s did anything\n", t->name);
            return 1;
        }
        good += t->good;
        refused += t->refused;
    }
    printf("C with refusals answers as ours: %lu calls that did something, %lu refusals\n", good, refused);
}
