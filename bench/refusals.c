/* Calls that are refused. Every form has the names of waitqueue.h. The build defines FORM_BARE for forms without
 * refusals, which are not called where the call is a mistake.
 *
 * SPDX-License-Identifier: Apache-2.0
 */
#include "bench.h"
#include "waitqueue.h"

enum { OWNER = 100, OTHER = 101, SLOTS = 4, BYTES = 16, WORDS = 4, BLOCKS = 4 };

static struct wq_sem sem;
static struct wq_mutex mutex;
static struct wq_msgq queue;
static struct wq_pipe pipe;
static struct wq_stack stack;
static struct wq_mem_slab slab;
static uint8_t room[SLOTS * BYTES], bytes[SLOTS * BYTES];
static uint64_t words[WORDS];
static uint32_t links[BLOCKS];

static void choose_nothing(const char *how)
{
    (void)how;
}

static uint32_t mix_head(uint32_t sum, const uint32_t *head, size_t count)
{
    for (size_t i = 0; i < count; i++)
        sum = mix(sum, head[i], 0);
    return sum;
}

/* All are as full as they can be, and as many wait as the number says; or all are empty. */
static void prepare(uint32_t waiters, bool full)
{
    expect(wq_sem_init(sem.head, 0, 1) == WQ_OK, "a semaphore is not made");
    expect(wq_mutex_init(mutex.head) == WQ_OK, "a mutex is not made");
    expect(wq_mutex_lock_blocking(mutex.head, mutex.entry, OWNER, 5, WQ_RUNNING) == WQ_OK, "a mutex is not locked");
    expect(wq_msgq_init(queue.head, room, sizeof room, BYTES, SLOTS) == WQ_OK, "a message queue is not made");
    expect(wq_pipe_init(pipe.head, room, sizeof room, sizeof room) == WQ_OK, "a pipe is not made");
    expect(wq_stack_init(stack.head, words, WORDS, WORDS) == WQ_OK, "a stack is not made");
    expect(wq_mem_slab_init(slab.head, links, BLOCKS, BYTES, BLOCKS) == WQ_OK, "a slab is not made");
    for (uint32_t i = 0; i < waiters; i++)
        expect(wq_sem_take_blocking(sem.head, sem.entry, i, 5, WQ_RUNNING) == WQ_WAITS, "a thread does not wait");
    if (full) {
        for (uint32_t i = 0; i < SLOTS; i++)
            expect(wq_msgq_put(queue.head, room, sizeof room, bytes, BYTES) == WQ_OK, "a message is not put");
        for (uint32_t i = 0; i < WORDS; i++)
            expect(wq_stack_push(stack.head, words, WORDS, i) == WQ_OK, "a word is not pushed");
        for (uint32_t i = 0; i < BLOCKS; i++)
            expect(wq_mem_slab_alloc(slab.head, links, BLOCKS) >= 0, "a block is not given");
        expect(wq_pipe_write(pipe.head, room, sizeof room, bytes, sizeof bytes) == sizeof bytes, "a pipe is not full");
    }
}

static void prepare_full(uint32_t waiters)
{
    prepare(waiters, true);
}

static void prepare_empty(uint32_t waiters)
{
    prepare(waiters, false);
}

static uint32_t rest_of_all(uint32_t sum)
{
    sum = mix_head(sum, sem.head, COUNT_OF(sem.head));
    sum = mix_head(sum, mutex.head, COUNT_OF(mutex.head));
    sum = mix_head(sum, queue.head, COUNT_OF(queue.head));
    sum = mix_head(sum, pipe.head, COUNT_OF(pipe.head));
    sum = mix_head(sum, stack.head, COUNT_OF(stack.head));
    return mix_head(sum, slab.head, COUNT_OF(slab.head));
}

/* ---- Operations ------------------------------------------------------------------------------- */

#define RUN(name, call)                                \
    static NOINLINE uint32_t run_##name(uint32_t times) \
    {                                                  \
        uint32_t sum = 1;                              \
        for (uint32_t i = 0; i < times; i++)           \
            sum = mix(sum, i, (int32_t)(call));        \
        return sum;                                    \
    }

static uint64_t word;

RUN(sem_try_take, wq_sem_try_take(sem.head, sem.entry))
RUN(mutex_try_lock, wq_mutex_try_lock(mutex.head, mutex.entry, OTHER))
RUN(msgq_put, wq_msgq_put(queue.head, room, sizeof room, bytes, BYTES))
RUN(msgq_get, wq_msgq_get(queue.head, room, sizeof room, bytes, BYTES))
RUN(pipe_write, wq_pipe_write(pipe.head, room, sizeof room, bytes, BYTES))
RUN(pipe_read, wq_pipe_read(pipe.head, room, sizeof room, bytes, BYTES))
RUN(stack_push, wq_stack_push(stack.head, words, WORDS, i))
RUN(stack_pop, wq_stack_pop(stack.head, words, WORDS, &word))
RUN(slab_alloc, wq_mem_slab_alloc(slab.head, links, BLOCKS))

#ifndef FORM_BARE
RUN(sem_take, wq_sem_take_blocking(sem.head, sem.entry, 0, 5, WQ_RUNNING))
RUN(sem_take_priority, wq_sem_take_blocking(sem.head, sem.entry, OTHER, 32, WQ_RUNNING))
RUN(mutex_unlock, wq_mutex_unlock(mutex.head, mutex.entry, OTHER, &word))
RUN(msgq_put_length, wq_msgq_put(queue.head, room, sizeof room, bytes, BYTES - 1))
RUN(slab_free, wq_mem_slab_free(slab.head, links, BLOCKS, 0))
#endif

/* ---- Cases ------------------------------------------------------------------------------------ */

static const struct bench cases[] = {
#define REFUSED(operation, waiters, why, prepare, run) \
    {"refused " operation, waiters, why, prepare, run, rest_of_all, SAMPLE, SAMPLE}
    REFUSED("sem try_take", 0, "none there", prepare_empty, run_sem_try_take),
    REFUSED("mutex try_lock", 0, "another's", prepare_empty, run_mutex_try_lock),
    REFUSED("msgq put", 0, "full", prepare_full, run_msgq_put),
    REFUSED("msgq get", 0, "empty", prepare_empty, run_msgq_get),
    REFUSED("pipe write", 0, "full", prepare_full, run_pipe_write),
    REFUSED("pipe read", 0, "empty", prepare_empty, run_pipe_read),
    REFUSED("stack push", 0, "full", prepare_full, run_stack_push),
    REFUSED("stack pop", 0, "empty", prepare_empty, run_stack_pop),
    REFUSED("slab alloc", 0, "all out", prepare_full, run_slab_alloc),
#ifndef FORM_BARE
    REFUSED("sem take", 1, "waits already", prepare_empty, run_sem_take),
    REFUSED("sem take", 8, "waits already", prepare_empty, run_sem_take),
    REFUSED("sem take", 0, "priority", prepare_empty, run_sem_take_priority),
    REFUSED("mutex unlock", 0, "another's", prepare_empty, run_mutex_unlock),
    REFUSED("msgq put", 0, "length", prepare_empty, run_msgq_put_length),
    REFUSED("slab free", 0, "not out", prepare_empty, run_slab_free),
#endif
};

const struct group refusal_group = {cases, COUNT_OF(cases), choose_nothing};
