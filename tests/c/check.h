/* Tests of the library through waitqueue.h. A test is a function; it has failed if one of its checks has.
 *
 * SPDX-License-Identifier: Apache-2.0
 */
#ifndef CHECK_H
#define CHECK_H

#include <stddef.h>

#include "waitqueue.h"

void check(bool holds, const char *file, int line, const char *what);
void check_equal(int64_t got, int64_t wanted, const char *file, int line, const char *what);

#define CHECK(what) check((what), __FILE__, __LINE__, #what)
#define EQUAL(got, wanted) check_equal((got), (wanted), __FILE__, __LINE__, #got " is " #wanted)

/* All that a test lends to the library. Before each test every byte is FILL; the guards, and the bytes between a header
 * and its entries, must be FILL after it. */
enum { FILL = 0xA5, PLACE = WQ_MAX_WAITERS + 1, ROOM = 320, WORDS = 12 };

struct guard {
    unsigned char bytes[32];
};

#define GUARDED(type, name)     \
    struct guard before_##name; \
    type name

struct memory {
    GUARDED(struct wq_thread, thread);
    GUARDED(struct wq_wait_queue, queue);
    GUARDED(struct wq_sem, sem);
    GUARDED(struct wq_mutex, mutex);
    GUARDED(struct wq_condvar, condvar);
    GUARDED(struct wq_futex, futex);
    GUARDED(wq_woken, who);
    GUARDED(wq_woken, out)[PLACE];
    GUARDED(struct wq_ring_buf, ring);
    GUARDED(struct wq_msgq, msgq);
    GUARDED(struct wq_pipe, pipe);
    GUARDED(struct wq_stack, stack);
    GUARDED(struct wq_mem_slab, slab);
    GUARDED(struct wq_event, event);
    GUARDED(struct wq_timer, timer);
    GUARDED(struct wq_timeout, timeout);
    GUARDED(uint8_t, buf)[ROOM]; /* where a ring, a message queue or a pipe keeps what it holds */
    GUARDED(uint8_t, src)[ROOM]; /* what goes in */
    GUARDED(uint8_t, got)[ROOM]; /* what comes out */
    GUARDED(uint64_t, word)[WORDS];
    GUARDED(uint32_t, link)[WORDS];
    GUARDED(uint8_t, byte);
    GUARDED(uint64_t, data);
    GUARDED(uint32_t, first);
    GUARDED(uint32_t, second);
    struct guard last;
};

extern struct memory m;

void keep(void);                           /* the memory, to compare with later */
bool stays(void);                          /* every byte is as it was kept */
void allow(const void *part, size_t size); /* this part of the memory may have changed since */

#define ALLOW(part) allow(&(part), sizeof(part))

/* This part of the memory is to be that since. */
void becomes(const void *part, const void *now, size_t size);
void word_becomes(const uint32_t *part, uint32_t now);
void long_becomes(const uint64_t *part, uint64_t now);

#define UP_TO(name, most) for (uint32_t name = 0; name <= (most); name++)

#define REFUSED(call, code)  \
    do {                     \
        keep();              \
        EQUAL(call, code);   \
        CHECK(stays());      \
    } while (0)

/* The answer, and the numbers that the call writes to m.first and m.second: none if it refuses. */
#define BOTH &m.first, &m.second

enum { UNWRITTEN = 0x5A5A5A5A };

#define DECIDES(call, code, now_first, now_second) \
    do {                                           \
        m.first = m.second = UNWRITTEN;            \
        keep();                                    \
        EQUAL(call, code);                         \
        if ((code) >= 0) {                         \
            word_becomes(&m.first, now_first);     \
            word_becomes(&m.second, now_second);   \
        }                                          \
        CHECK(stays());                            \
    } while (0)

#define DECIDES_ONE(call, code, now) DECIDES(call, code, now, UNWRITTEN)

/* m.thread is this one, and it runs. */
struct wq_thread *running(uint32_t id, uint32_t priority);

#define IDS(...) (const uint32_t[]){__VA_ARGS__}, sizeof((const uint32_t[]){__VA_ARGS__}) / sizeof(uint32_t)

static inline uint64_t entry_of(uint32_t priority, uint32_t id) { return (uint64_t)priority << 32 | id; }

/* The queue has these threads, the first to be woken in front. */
bool queue_is(const uint64_t *entry, uint32_t len, const uint32_t *ids, size_t count);

/* Where the threads 0 to 63 wait, each with the priority 31 - id % 32, and came in that order: the order in which they
 * are woken. The answer is their number. */
size_t all_in_order(uint32_t *ids);

/* These threads stand in m.out, each with the result, and what is behind them is as it was kept. */
bool handed_out(int32_t result, const uint32_t *ids, size_t count);

/* ---- Numbers --------------------------------------------------------------------------------- */

enum { EDGES = 8 };

/* Small numbers, those about 2^31, and the largest. */
extern const uint32_t edges[EDGES];

/* A number from 0 to below. The numbers are the same in every run. */
uint32_t random_below(uint32_t below);
uint64_t random_word(void);

/* ---- Bytes ----------------------------------------------------------------------------------- */

/* A length beyond 32 bits, and so many bytes. Hardly any of them is reached, so they take no memory. */
#define HUGE_LEN ((uint64_t)UINT32_MAX + 4096)
uint8_t *huge(void);

/* How many of len bytes there is room for, or of which there are most. */
int64_t lesser(uint64_t len, uint32_t most);

void fill_randomly(uint8_t *bytes, size_t count);

/* What an object holds, in the order in which it is to come out. */
struct held {
    uint8_t byte[ROOM];
    size_t count;
};

void held_behind(struct held *h, const uint8_t *bytes, size_t count);
void held_before(struct held *h, const uint8_t *bytes, size_t count);
void held_leaves(struct held *h, size_t count);

/* An object that keeps bytes in a ring in m.buf. What its functions answer is its own; where the bytes go is not. */
struct ring {
    uint32_t *head; /* its size, where the first byte is, how many there are */
    int64_t (*put)(const uint8_t *src, uint64_t len);
    int64_t (*get)(uint8_t *out, uint64_t len);
    int64_t (*put_answer)(uint64_t len, uint32_t space);
    int64_t (*get_answer)(uint64_t len, uint32_t count);
};

void ring_put(const struct ring *r, uint64_t len); /* of m.src */
void ring_get(const struct ring *r, uint64_t len); /* into m.got */
void every_small_ring(const struct ring *r);
void long_run_of_ring(const struct ring *r, uint32_t size);
void longer_than_32_bits(const struct ring *r);

/* ---- What is refused ------------------------------------------------------------------------- */

enum { MALFORMED_RINGS = 15, BAD_SIZES = 7 };

/* A ring's three words, the length of its buffer. */
extern const struct malformed_ring {
    uint32_t head[3];
    uint64_t len;
} malformed_rings[MALFORMED_RINGS];

/* How much an object is to hold, the length of the memory that it is lent; it is 0 or too much. */
extern const struct sized {
    uint32_t size;
    uint64_t len;
} bad_sizes[BAD_SIZES];

enum { TOO_LONG = 3, BAD_CALLERS = 8, BAD_ENTRIES = 9, MALFORMED_MUTEXES = 17 };

/* How many wait, and it is too many. */
extern const uint32_t too_long[TOO_LONG];

/* Who cannot wait, and what it is told. */
extern const struct bad_caller {
    uint32_t priority, state;
    int32_t code;
} bad_callers[BAD_CALLERS];

/* What makes a bad queue of 3, 7, 9 with priorities 2, 5, 5, whose entries are from behind. */
extern const struct bad_entry {
    uint32_t at, priority, id;
} bad_entries[BAD_ENTRIES];

extern const uint32_t malformed_mutexes[MALFORMED_MUTEXES][4];

struct test {
    const char *name;
    void (*run)(void);
};

#define TEST(function) {#function, function}

struct group {
    const char *name;
    const struct test *tests;
    size_t count;
};

#define COUNT_OF(array) (sizeof(array) / sizeof(array)[0])

#define GROUP(name, tests) {name, tests, COUNT_OF(tests)}

extern const struct group thread_group, wait_queue_group, sem_group, mutex_group, condvar_group, futex_group,
    ring_buf_group, msgq_group, pipe_group, stack_group, mem_slab_group, event_group, timer_group, timeout_group;

#endif
