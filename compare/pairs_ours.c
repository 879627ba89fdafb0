/* Asks libwaitqueue.a what compare/pairs.rs asks of Gale: a decide function, and its object made of the same numbers.
 *
 *     pairs_ours < questions
 *
 * A question is a line: the function as compare/pairs.txt has it, and its inputs, all separated by tabs. The answer is a
 * line: what the decide function says, a tab, what the object does.
 */
#include "waitqueue.h"

#include <stdio.h>
#include <stdlib.h>
#include <string.h>

enum { INPUTS = 5, ROOM = 128, CELLS = 64, CALLER = 0, OTHER = 99, MESSAGE = 7 };

typedef char said[ROOM];

static void refuses(said to, long long code) { snprintf(to, ROOM, "refuses, %lld", code); }

/* Threads 1, 2 and so on wait, as far as there are entries; the first to be woken stands last. */
static void queue(uint64_t *entry, uint32_t len)
{
    uint32_t n = len < WQ_MAX_WAITERS ? len : WQ_MAX_WAITERS;
    for (uint32_t i = 0; i < n; i++)
        entry[i] = n - i;
}

static void numbered(said to, const char *what, const char *name, uint32_t number)
{
    if (number == UINT32_MAX)
        snprintf(to, ROOM, "%s, %s 2^32 - 1", what, name);
    else
        snprintf(to, ROOM, "%s, %s %u", what, name, (unsigned)number);
}

static void sem_give(const uint32_t *in, said decides, said object)
{
    static const char *const what[] = {"wakes", "adds one", "does nothing"};
    struct wq_sem s = {.head = {in[0], in[1], in[2]}};
    wq_woken who;
    int32_t r = wq_sem_give_decide(in[0], in[1], in[2] != 0);
    if (r < 0)
        refuses(decides, r);
    else
        numbered(decides, what[r], "count", in[0] + (r == WQ_GIVE_INCREMENTED));
    queue(s.entry, in[2]);
    r = wq_k_sem_give(&s, &who);
    if (r < 0)
        refuses(object, r);
    else
        numbered(object, what[r], "count", s.head[0]);
}

static void mutex_lock(const uint32_t *in, said decides, said object)
{
    struct wq_mutex m = {.head = {in[1] == 0, in[2] ? CALLER : OTHER, in[0], 0}};
    struct wq_thread t = {.id = CALLER, .state = WQ_RUNNING};
    int32_t r = wq_mutex_lock_decide(in[0], in[1] != 0, in[2] != 0, in[3] != 0);
    if (r < 0)
        refuses(decides, r);
    else if (r == WQ_LOCK_PEND)
        strcpy(decides, "waits");
    else
        numbered(decides, "takes it", "locks", r == WQ_LOCK_ACQUIRE ? 1 : in[0] + 1);
    r = in[3] ? wq_k_mutex_try_lock(&m, CALLER) : wq_k_mutex_lock(&m, &t);
    if (r < 0)
        refuses(object, r);
    else if (r == WQ_WAITS)
        strcpy(object, "waits");
    else
        numbered(object, "takes it", "locks", m.head[2]);
}

static void condvar_broadcast(const uint32_t *in, said decides, said object)
{
    struct wq_condvar c = {.head = {in[0]}};
    wq_woken out[WQ_MAX_WAITERS];
    int32_t r = wq_condvar_broadcast_decide(in[0]);
    r < 0 ? refuses(decides, r) : numbered(decides, "wakes", "number", (uint32_t)r);
    queue(c.entry, in[0]);
    r = wq_k_condvar_broadcast(&c, out, WQ_MAX_WAITERS);
    r < 0 ? refuses(object, r) : numbered(object, "wakes", "number", (uint32_t)r);
}

/* The caller has the mutex once. */
static void condvar_wait(const uint32_t *in, said decides, said object)
{
    struct wq_condvar c = {.head = {in[1]}};
    struct wq_mutex m = {.head = {1, CALLER, 1, 0}};
    struct wq_thread t = {.id = CALLER, .state = WQ_RUNNING};
    wq_woken who;
    int32_t r = wq_condvar_wait_decide(in[0] != 0);
    r < 0 ? refuses(decides, r) : (void)strcpy(decides, "waits");
    queue(c.entry, in[1]);
    r = wq_k_condvar_wait(&c, &m, &t, &who);
    r < 0 ? refuses(object, r) : (void)strcpy(object, "waits");
}

static void futex_wait(const uint32_t *in, said decides, said object)
{
    struct wq_futex f = {.head = {in[0], in[2]}};
    struct wq_thread t = {.id = CALLER, .state = WQ_RUNNING};
    int32_t r = wq_futex_wait_decide(in[0], in[1]);
    r < 0 ? refuses(decides, r) : (void)strcpy(decides, "waits");
    queue(f.entry, in[2]);
    r = wq_k_futex_wait(&f, in[1], &t);
    r < 0 ? refuses(object, r) : (void)strcpy(object, "waits");
}

static void futex_wake(const uint32_t *in, said decides, said object)
{
    struct wq_futex f = {.head = {0, in[0]}};
    wq_woken out[WQ_MAX_WAITERS];
    uint32_t remaining = 0;
    int32_t r = wq_futex_wake_decide(in[0], in[1] != 0, &remaining);
    if (r < 0)
        refuses(decides, r);
    else
        snprintf(decides, ROOM, "wakes, number %d, remaining %u", (int)r, (unsigned)remaining);
    queue(f.entry, in[0]);
    r = wq_k_futex_wake(&f, in[1] != 0, out, WQ_MAX_WAITERS);
    if (r < 0)
        refuses(object, r);
    else
        snprintf(object, ROOM, "wakes, number %d, remaining %u", (int)r, (unsigned)f.head[1]);
}

/* Where somebody waits, the object's word is pushed, and then the waiter pops. */
static void stack_push(const uint32_t *in, said decides, said object)
{
    uint64_t word[CELLS] = {0}, top;
    struct wq_stack s = {.head = {in[1], in[0]}, .word = word, .word_len = CELLS};
    uint32_t count = 0;
    int32_t r = wq_stack_push_decide(in[0], in[1], in[2] != 0, &count);
    r < 0 ? refuses(decides, r) : numbered(decides, r == WQ_PUSH_STORE ? "stores" : "hands over", "count", count);
    r = wq_k_stack_push(&s, MESSAGE);
    if (r < 0)
        refuses(object, r);
    else if (in[2] && wq_k_stack_pop(&s, &top) == WQ_OK && top == MESSAGE)
        numbered(object, "hands over", "count", s.head[1]);
    else
        numbered(object, "stores", "count", s.head[1]);
}

/* The block that was given last is freed; block 0 if none was. */
static void mem_slab_free(const uint32_t *in, said decides, said object)
{
    uint32_t link[CELLS], used = 0, block = 0;
    struct wq_mem_slab s;
    int32_t r = wq_mem_slab_free_decide(in[0], in[1] != 0, &used);
    r < 0 ? refuses(decides, r) : numbered(decides, r == WQ_FREE_FREE ? "frees" : "hands over", "num_used", used);
    if (in[0] > CELLS) {
        strcpy(object, "not asked: more blocks than there are links");
        return;
    }
    wq_k_mem_slab_init(&s, link, CELLS, 1, in[0] ? in[0] : 1);
    for (uint32_t i = 0; i < in[0]; i++)
        block = (uint32_t)wq_k_mem_slab_alloc(&s);
    r = wq_k_mem_slab_free(&s, block);
    if (r < 0)
        refuses(object, r);
    else if (in[1] && wq_k_mem_slab_alloc(&s) == (int64_t)block)
        numbered(object, "hands over", "num_used", s.head[2]);
    else
        numbered(object, "frees", "num_used", s.head[2]);
}

/* Where a reader waits, the object's message is put, and then the reader gets. The write index is no number of ours. */
static void msgq_put(const uint32_t *in, said decides, said object)
{
    uint32_t idx = in[0], used = in[1], max = in[2], now[2] = {0, 0};
    uint8_t buf[CELLS] = {0}, message = MESSAGE, out;
    struct wq_msgq q = {.head = {max, 0, used, 1}, .buf = buf, .buf_len = CELLS};
    int32_t r = wq_msgq_put_decide(idx, used, max, in[3] != 0, in[4] != 0, &now[0], &now[1]);
    if (r < 0)
        refuses(decides, r);
    else if (r == WQ_PUT_PEND)
        strcpy(decides, "waits");
    else if (r == WQ_PUT_WAKE_READER)
        numbered(decides, "hands it over", "used", now[1]);
    else
        snprintf(decides, ROOM, "puts, write_idx %u, used %u", (unsigned)now[0], (unsigned)now[1]);
    if (max > 0 && idx >= max) {
        strcpy(object, "has no such index");
        return;
    }
    if (max > 0)
        q.head[1] = (uint32_t)((idx + (uint64_t)max - (used > max ? max : used)) % max);
    r = wq_k_msgq_put(&q, &message, 1);
    if (r == WQ_ENOMSG && !in[4])
        strcpy(object, "waits");
    else if (r < 0)
        refuses(object, r);
    else if (!in[3])
        snprintf(object, ROOM, "puts, write_idx %u, used %u", (unsigned)wq_k_msgq_write_idx_get(&q), (unsigned)q.head[2]);
    else if (wq_k_msgq_get(&q, &out, 1) == WQ_OK)
        numbered(object, out == MESSAGE ? "hands it over" : "hands over an older one", "used", q.head[2]);
}

static uint32_t tail_of(const uint32_t *in) { return in[0] ? (uint32_t)(((uint64_t)in[1] + in[2]) % in[0]) : 0; }

static struct wq_ring_buf ring(const uint32_t *in)
{
    static uint8_t buf[CELLS];
    return (struct wq_ring_buf){.head = {in[0], in[1], in[2]}, .buf = buf, .buf_len = CELLS};
}

static void told(said to, const char *name, int64_t r)
{
    r < 0 ? refuses(to, r) : numbered(to, "answers", name, (uint32_t)r);
}

static void ring_size(const uint32_t *in, said decides, said object)
{
    struct wq_ring_buf r = ring(in);
    told(decides, "size", wq_ring_buf_size_get_decide(tail_of(in), in[1]));
    told(object, "size", wq_k_ring_buf_size_get(&r));
}

static void ring_space(const uint32_t *in, said decides, said object)
{
    struct wq_ring_buf r = ring(in);
    told(decides, "space", wq_ring_buf_space_get_decide(in[1] + in[2], in[1], in[0]));
    told(object, "space", wq_k_ring_buf_space_get(&r));
}

static void ring_own_space(const uint32_t *in, said decides, said object)
{
    struct wq_ring_buf r = ring(in);
    told(decides, "space", wq_ring_buf_space_get_decide(tail_of(in), in[1], in[0]));
    told(object, "space", wq_k_ring_buf_space_get(&r));
}

static void takes(said to, int64_t number, int64_t slot)
{
    if (number < 0)
        refuses(to, number);
    else
        snprintf(to, ROOM, "takes, number %lld, from slot %lld", (long long)number, (long long)slot);
}

static void ring_claim(const uint32_t *in, uint32_t index, said decides)
{
    uint32_t offset = 0, number = wq_ring_buf_claim_decide(in[4] + index, in[4], in[0], in[3], &offset);
    takes(decides, number, offset);
}

static void ring_put_n(const uint32_t *in, said decides, said object)
{
    uint8_t bytes[CELLS] = {0};
    struct wq_ring_buf r = ring(in);
    int64_t slot = wq_k_ring_buf_tail_get(&r);
    ring_claim(in, tail_of(in), decides);
    takes(object, wq_k_ring_buf_put_n(&r, bytes, in[3] < CELLS ? in[3] : CELLS), slot);
}

static void ring_get_n(const uint32_t *in, said decides, said object)
{
    uint8_t bytes[CELLS];
    struct wq_ring_buf r = ring(in);
    int64_t slot = wq_k_ring_buf_head_get(&r);
    ring_claim(in, in[1], decides);
    takes(object, wq_k_ring_buf_get_n(&r, bytes, in[3] < CELLS ? in[3] : CELLS), slot);
}

static void moves(said to, const char *what, int64_t bytes, uint32_t used)
{
    snprintf(to, ROOM, "%s, bytes %lld, used %u", what, (long long)bytes, (unsigned)used);
}

static void pipe_decides(said to, int32_t r, const char *what, const char *hands, const uint32_t *now)
{
    if (r < 0)
        refuses(to, r);
    else if (r == WQ_WRITE_PEND)
        strcpy(to, "waits");
    else
        moves(to, r == WQ_WRITE_WAKE_READER ? hands : what, now[0], now[1]);
}

/* "Try again" of the object is a wait of the decide function. */
static void pipe_does(said to, int64_t r, const char *what, uint32_t used)
{
    if (r == WQ_EAGAIN)
        strcpy(to, "waits");
    else if (r < 0)
        refuses(to, r);
    else
        moves(to, what, r, used);
}

/* Where a reader waits at an empty pipe, the object's bytes are written, and then the reader reads them. */
static void pipe_write(const uint32_t *in, said decides, said object)
{
    uint8_t buf[CELLS] = {0}, bytes[CELLS] = {0};
    struct wq_pipe p = {.head = {in[1], 0, in[0], in[2]}, .buf = buf, .buf_len = CELLS};
    uint32_t now[2] = {0, 0};
    int32_t code = wq_pipe_write_decide(in[0], in[1], in[2], in[3], in[4] != 0, &now[0], &now[1]);
    int64_t r = wq_k_pipe_write(&p, bytes, in[3] < CELLS ? in[3] : CELLS);
    pipe_decides(decides, code, "writes", "hands over", now);
    if (r > 0 && in[0] == 0 && in[4] && wq_k_pipe_read(&p, bytes, (uint64_t)r) == r)
        moves(object, "hands over", r, p.head[2]);
    else
        pipe_does(object, r, "writes", p.head[2]);
}

/* Where a writer waits at a full pipe, the decide function speaks of the read alone. */
static void pipe_read(const uint32_t *in, said decides, said object)
{
    uint8_t buf[CELLS] = {0}, bytes[CELLS];
    struct wq_pipe p = {.head = {in[1], 0, in[0], in[2]}, .buf = buf, .buf_len = CELLS};
    uint32_t now[2] = {0, 0};
    int32_t code = wq_pipe_read_decide(in[0], in[1], in[2], in[3], in[4] != 0, &now[0], &now[1]);
    int64_t r = wq_k_pipe_read(&p, bytes, in[3] < CELLS ? in[3] : CELLS);
    pipe_decides(decides, code, "reads", "reads", now);
    pipe_does(object, r, "reads", p.head[2]);
}

static void timer_expire(const uint32_t *in, said decides, said object)
{
    struct wq_timer t = {.head = {in[0], in[1], 1}};
    uint32_t status = 0;
    int32_t r = wq_timer_expire_decide(in[0], in[1], &status);
    int64_t n = wq_k_timer_expire(&t);
    if (r < 0)
        refuses(decides, r);
    else
        snprintf(decides, ROOM, "expires, status %u, periodic %d", (unsigned)status, (int)r);
    if (n < 0)
        refuses(object, n);
    else
        snprintf(object, ROOM, "expires, status %u, periodic %d", (unsigned)n, wq_k_timer_period_get(&t) > 0);
}

static const struct {
    const char *function;
    int inputs;
    void (*ask)(const uint32_t *in, said decides, said object);
} known[] = {
    {"sem::give_decide", 3, sem_give},
    {"mutex::lock_decide", 4, mutex_lock},
    {"condvar::broadcast_decide", 1, condvar_broadcast},
    {"condvar::wait_decide", 2, condvar_wait},
    {"futex::wait_decide", 3, futex_wait},
    {"futex::wake_decide", 2, futex_wake},
    {"stack::push_decide", 3, stack_push},
    {"mem_slab::free_decide", 2, mem_slab_free},
    {"msgq::put_decide", 5, msgq_put},
    {"ring_buf::size_get_decide, own indices", 3, ring_size},
    {"ring_buf::space_get_decide", 3, ring_space},
    {"ring_buf::space_get_decide, own indices", 3, ring_own_space},
    {"ring_buf::claim_decide, put_n", 5, ring_put_n},
    {"ring_buf::claim_decide, get_n", 5, ring_get_n},
    {"pipe::write_decide", 5, pipe_write},
    {"pipe::read_decide", 5, pipe_read},
    {"timer::expire_decide", 2, timer_expire},
};

static int ask(char *line)
{
    const char *function = strtok(line, "\t\n"), *number;
    uint32_t in[INPUTS];
    int n = 0;
    while (n < INPUTS && (number = strtok(NULL, "\t\n")) != NULL)
        in[n++] = (uint32_t)strtoull(number, NULL, 10);
    for (size_t i = 0; function && i < sizeof known / sizeof known[0]; i++)
        if (strcmp(function, known[i].function) == 0 && n == known[i].inputs) {
            said decides = "nothing", object = "nothing";
            known[i].ask(in, decides, object);
            printf("%s\t%s\n", decides, object);
            return 1;
        }
    fprintf(stderr, "unknown: %s with %d inputs\n", function ? function : "", n);
    return 0;
}

int main(void)
{
    char line[512];
    while (fgets(line, sizeof line, stdin))
        if (!ask(line))
            return 1;
    return 0;
}
