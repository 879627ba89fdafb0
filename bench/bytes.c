/* Ring buffer, pipe, message queue and stack: what goes in comes out. Every form has the names of waitqueue.h.
 *
 * SPDX-License-Identifier: Apache-2.0
 */
#include <string.h>
#include "bench.h"
#include "waitqueue.h"

enum { MOST = 256, MESSAGES = 8, SLOTS = 8, WORDS = 16 };

static struct wq_ring_buf ring;
static struct wq_pipe pipe;
static struct wq_msgq queue;
static struct wq_stack stack;

static _Alignas(64) uint8_t messages[MESSAGES * MOST], room[SLOTS * MOST], got[MOST];
static uint64_t words[WORDS];
static bool straddles;

static void choose_place(const char *how)
{
    straddles = strcmp(how, "straddling") == 0;
}

static void fill_messages(void)
{
    uint32_t random = 12345;
    for (size_t i = 0; i < sizeof messages; i++) {
        random = random * 1664525u + 1013904223u;
        messages[i] = (uint8_t)(random >> 24);
    }
    memset(room, 0, sizeof room);
    memset(got, 0, sizeof got);
}

/* The i-th message; they come round. */
static inline const uint8_t *message(uint32_t i, uint32_t bytes)
{
    return messages + i % MESSAGES * bytes;
}

static uint32_t size;    /* of what is written at once */
static uint32_t last_at; /* where its last four bytes begin, or all of them */

static void set_size(uint32_t bytes)
{
    size = bytes;
    last_at = bytes < sizeof(uint32_t) ? 0 : bytes - (uint32_t)sizeof(uint32_t);
}

/* The sum over what came out, of which the first and the last bytes stand for all. */
static inline uint32_t mix_bytes(uint32_t sum, int64_t answers)
{
    uint32_t first, last;
    memcpy(&first, got, sizeof first);
    memcpy(&last, got + last_at, sizeof last);
    return mix(sum, first ^ 3 * last, (int32_t)answers);
}

/* The sum over a header and over all that is in the memory it was lent. */
static uint32_t mix_rest(uint32_t sum, const uint32_t *head, size_t count)
{
    for (size_t i = 0; i < count; i++)
        sum = mix(sum, head[i], 0);
    for (size_t i = 0; i < sizeof room; i++)
        sum = mix(sum, room[i], 0);
    return sum;
}

/* ---- Ring buffer and pipe ---------------------------------------------------------------------
 *
 * As large as what is written, and empty before: a write begins where the ring does and ends where it ends; or it
 * begins in the middle, and half of it is before the end and half behind. */

typedef int32_t init(uint32_t *head, const uint8_t *buf, uint64_t buf_len, uint32_t size);
typedef int64_t put(uint32_t *head, uint8_t *buf, uint64_t buf_len, const uint8_t *src, uint64_t src_len);
typedef int64_t get(uint32_t *head, const uint8_t *buf, uint64_t buf_len, uint8_t *out, uint64_t out_len);

static void prepare(uint32_t *head, uint32_t bytes, init *make, put *write, get *read)
{
    set_size(bytes);
    fill_messages();
    expect(make(head, room, bytes, bytes) == WQ_OK, "a ring is not made");
    if (straddles)
        expect(write(head, room, bytes, messages, bytes / 2) == bytes / 2 &&
                   read(head, room, bytes, got, bytes / 2) == bytes / 2,
               "a ring does not move");
}

/* Inline, so that the calls are direct. */
static inline __attribute__((always_inline)) uint32_t run(uint32_t *head, uint32_t times, put *write, get *read)
{
    uint32_t sum = 1;
    for (uint32_t i = 0; i < times; i++) {
        int64_t in = write(head, room, size, message(i, size), size);
        int64_t out = read(head, room, size, got, size);
        sum = mix_bytes(sum, 4 * in + out);
    }
    return sum;
}

static void prepare_ring(uint32_t bytes)
{
    prepare(ring.head, bytes, wq_ring_buf_init, wq_ring_buf_put_n, wq_ring_buf_get_n);
}

static NOINLINE uint32_t run_ring(uint32_t times)
{
    return run(ring.head, times, wq_ring_buf_put_n, wq_ring_buf_get_n);
}

static uint32_t rest_of_ring(uint32_t sum)
{
    return mix_rest(sum, ring.head, COUNT_OF(ring.head));
}

static void prepare_pipe(uint32_t bytes)
{
    prepare(pipe.head, bytes, wq_pipe_init, wq_pipe_write, wq_pipe_read);
}

static NOINLINE uint32_t run_pipe(uint32_t times)
{
    return run(pipe.head, times, wq_pipe_write, wq_pipe_read);
}

static uint32_t rest_of_pipe(uint32_t sum)
{
    return mix_rest(sum, pipe.head, COUNT_OF(pipe.head));
}

/* ---- Message queue ----------------------------------------------------------------------------
 *
 * It is half full, so that a message is read some time after it was written, and the slots are used in turn. */

static void prepare_queue(uint32_t bytes)
{
    set_size(bytes);
    fill_messages();
    expect(wq_msgq_init(queue.head, room, sizeof room, bytes, SLOTS) == WQ_OK, "a message queue is not made");
    for (uint32_t i = 0; i < SLOTS / 2; i++)
        expect(wq_msgq_put(queue.head, room, sizeof room, message(i, bytes), bytes) == WQ_OK, "a message is not put");
}

static NOINLINE uint32_t run_queue(uint32_t times)
{
    uint32_t sum = 1;
    for (uint32_t i = 0; i < times; i++) {
        int32_t in = wq_msgq_put(queue.head, room, sizeof room, message(i, size), size);
        int32_t out = wq_msgq_get(queue.head, room, sizeof room, got, size);
        sum = mix_bytes(sum, 4 * in + out);
    }
    return sum;
}

static uint32_t rest_of_queue(uint32_t sum)
{
    return mix_rest(sum, queue.head, COUNT_OF(queue.head));
}

/* ---- Stack ------------------------------------------------------------------------------------ */

static void prepare_stack(uint32_t bytes)
{
    (void)bytes;
    expect(wq_stack_init(stack.head, words, WORDS, WORDS) == WQ_OK, "a stack is not made");
    for (uint32_t i = 0; i < WORDS / 2; i++)
        expect(wq_stack_push(stack.head, words, WORDS, i) == WQ_OK, "a word is not pushed");
}

static NOINLINE uint32_t run_stack(uint32_t times)
{
    uint64_t word = 0;
    uint32_t sum = 1;
    for (uint32_t i = 0; i < times; i++) {
        int32_t in = wq_stack_push(stack.head, words, WORDS, i);
        int32_t out = wq_stack_pop(stack.head, words, WORDS, &word);
        sum = mix(sum, (uint32_t)word, 4 * in + out);
    }
    return sum;
}

static uint32_t rest_of_stack(uint32_t sum)
{
    uint64_t word = 0;
    for (uint32_t i = 0; i < WORDS / 2; i++) {
        int32_t out = wq_stack_pop(stack.head, words, WORDS, &word);
        sum = mix(sum, (uint32_t)word, out);
    }
    return mix(sum, stack.head[0], (int32_t)stack.head[1]);
}

/* ---- Cases ------------------------------------------------------------------------------------ */

static const struct bench cases[] = {
#define RING(kind) {"ring write+read", 64, kind, prepare_ring, run_ring, rest_of_ring, SAMPLE, SAMPLE}
    RING("aligned"),
    RING("straddling"),
#define PIPE(kind) {"pipe write+read", 64, kind, prepare_pipe, run_pipe, rest_of_pipe, SAMPLE, SAMPLE}
    PIPE("aligned"),
    PIPE("straddling"),
#define MSGQ(bytes) {"msgq put+get", bytes, "-", prepare_queue, run_queue, rest_of_queue, SAMPLE, SAMPLE}
    MSGQ(3),
    MSGQ(4),
    MSGQ(12),
    MSGQ(16),
    MSGQ(64),
    MSGQ(100),
    MSGQ(256),
    {"stack push+pop", 8, "-", prepare_stack, run_stack, rest_of_stack, SAMPLE, SAMPLE},
};

const struct group bytes_group = {cases, COUNT_OF(cases), choose_place};
