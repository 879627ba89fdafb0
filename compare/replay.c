/* Replays what Gale's Rust answered against libwaitqueue.a, through the inline functions of its header.
 *
 *     replay recorded.txt
 */
#include "replay.h"

#include <stdio.h>
#include <stdlib.h>
#include <string.h>

enum { MAX_LINE = 4096 };

static struct wq_thread thread;
static struct wq_wait_queue queue;
static struct wq_sem sem;
static struct wq_mutex mutex;
static struct wq_condvar condvar;
static struct wq_futex futex;

static void answer_woken(struct result *r, wq_woken who)
{
    answer(r, wq_woken_id(who));
    answer(r, wq_woken_result(who));
}

static void hold_queue(struct result *r, uint32_t len, const uint64_t *entry)
{
    put(&r->after, len);
    for (uint32_t i = len; i > 0 && len <= WQ_MAX_WAITERS; i--)
        put(&r->after, (uint32_t)entry[i - 1]);
}

/* Gale only counts those that it wakes all at once; ours names them, and they must be those that waited. */
static void check_woken(struct result *r, uint32_t len, const uint64_t *entry, const wq_woken *out, int32_t result)
{
    for (uint32_t i = 0; i < len; i++)
        if (wq_woken_id(out[i]) != (uint32_t)entry[len - 1 - i] || wq_woken_result(out[i]) != result)
            r->broken = "woke others than those that waited, or with another result";
}

static struct wq_thread running(long long id, long long priority)
{
    struct wq_thread t;
    wq_thread_init(&t, (uint32_t)id, (uint32_t)priority);
    wq_dispatch(&t);
    return t;
}

static void check_waits(struct result *r, const struct wq_thread *t, bool waits)
{
    if (t->state != (waits ? WQ_BLOCKED : WQ_RUNNING))
        r->broken = "the caller's state is wrong";
}

/* ---- Priority and thread ------------------------------------------------------------------ */

static void priority_new(const long long *in, struct result *r) { answer(r, wq_priority_new((uint32_t)in[0])); }
static void priority_get(const long long *in, struct result *r) { answer(r, wq_priority_get((uint32_t)in[0])); }

static void priority_is_higher_than(const long long *in, struct result *r)
{
    answer(r, wq_priority_is_higher_than((uint32_t)in[0], (uint32_t)in[1]));
}

static void priority_is_higher_or_equal(const long long *in, struct result *r)
{
    answer(r, wq_priority_is_higher_or_equal((uint32_t)in[0], (uint32_t)in[1]));
}

static void hold_thread(struct result *r)
{
    put(&r->after, thread.id);
    put(&r->after, thread.priority);
    put(&r->after, thread.state);
    put(&r->after, thread.return_value);
}

static void thread_init(const long long *in, struct result *r)
{
    answer(r, wq_thread_init(&thread, (uint32_t)in[0], (uint32_t)in[1]));
    hold_thread(r);
}

static void thread_dispatch(const long long *in, struct result *r)
{
    (void)in;
    answer(r, wq_dispatch(&thread));
    hold_thread(r);
}

static void thread_block(const long long *in, struct result *r)
{
    (void)in;
    answer(r, wq_block(&thread));
    hold_thread(r);
}

static void thread_wake(const long long *in, struct result *r)
{
    answer(r, wq_wake(&thread, (int32_t)in[0]));
    hold_thread(r);
}

static void thread_is_blocked(const long long *in, struct result *r)
{
    (void)in;
    answer(r, wq_thread_is_blocked(thread.state));
}

/* ---- Wait queue --------------------------------------------------------------------------- */

static void wait_queue_hold(struct result *r)
{
    hold_queue(r, queue.len, queue.entry);
    if (wq_len(&queue) != (int32_t)queue.len || wq_is_empty(&queue) != (queue.len == 0) || !wq_audit(&queue))
        r->broken = "length, emptiness or audit is wrong";
}

static void wait_queue_new(const long long *in, struct result *r)
{
    (void)in;
    wq_init(&queue);
    answer(r, WQ_OK);
    wait_queue_hold(r);
}

static void wait_queue_pend(const long long *in, struct result *r)
{
    struct wq_thread t = running(in[0], in[1]);
    int32_t code = wq_pend(&queue, &t);
    answer(r, code);
    check_waits(r, &t, code == WQ_WAITS);
    wait_queue_hold(r);
}

static void wait_queue_unpend_first(const long long *in, struct result *r)
{
    wq_woken who;
    int32_t code = wq_unpend_first(&queue, (int32_t)in[0], &who);
    answer(r, code);
    if (code == 1)
        answer_woken(r, who);
    wait_queue_hold(r);
}

static void wait_queue_unpend_all(const long long *in, struct result *r)
{
    struct wq_wait_queue before = queue;
    wq_woken out[WQ_MAX_WAITERS] = {0};
    answer(r, wq_unpend_all(&queue, (int32_t)in[0], out, WQ_MAX_WAITERS));
    check_woken(r, before.len, before.entry, out, (int32_t)in[0]);
    wait_queue_hold(r);
}

/* ---- Semaphore ---------------------------------------------------------------------------- */

static void sem_hold(struct result *r)
{
    put(&r->after, wq_k_sem_count_get(&sem));
    hold_queue(r, sem.head[2], sem.entry);
    if (wq_k_sem_num_waiters(&sem) != sem.head[2] || wq_k_sem_limit_get(&sem) != sem.head[1] || !wq_k_sem_audit(&sem))
        r->broken = "limit, number of waiters or audit is wrong";
}

static void sem_init(const long long *in, struct result *r)
{
    struct wq_sem before = sem;
    int32_t code = wq_k_sem_init(&sem, (uint32_t)in[0], (uint32_t)in[1]);
    answer(r, code);
    if (code == WQ_OK)
        sem_hold(r);
    else if (memcmp(before.head, sem.head, sizeof sem.head) != 0)
        r->broken = "a refusal changed a word";
}

static void sem_give(const long long *in, struct result *r)
{
    wq_woken who;
    int32_t code = wq_k_sem_give(&sem, &who);
    (void)in;
    answer(r, code);
    if (code == WQ_GIVE_WOKE)
        answer_woken(r, who);
    sem_hold(r);
}

static void sem_try_take(const long long *in, struct result *r)
{
    (void)in;
    answer(r, wq_k_sem_try_take(&sem));
    sem_hold(r);
}

static void sem_take_blocking(const long long *in, struct result *r)
{
    struct wq_thread t = running(in[0], in[1]);
    int32_t code = wq_k_sem_take(&sem, &t);
    answer(r, code);
    check_waits(r, &t, code == WQ_WAITS);
    sem_hold(r);
}

static void sem_reset(const long long *in, struct result *r)
{
    struct wq_sem before = sem;
    wq_woken out[WQ_MAX_WAITERS] = {0};
    (void)in;
    answer(r, wq_k_sem_reset(&sem, out, WQ_MAX_WAITERS));
    check_woken(r, before.head[2], before.entry, out, WQ_EAGAIN);
    sem_hold(r);
}

static void sem_give_decide(const long long *in, struct result *r)
{
    answer(r, wq_sem_give_decide((uint32_t)in[0], (uint32_t)in[1], in[2] != 0));
}

static void sem_take_decide(const long long *in, struct result *r)
{
    answer(r, wq_sem_take_decide((uint32_t)in[0], in[1] != 0));
}

/* ---- Mutex -------------------------------------------------------------------------------- */

static void mutex_hold(struct result *r)
{
    bool locked = mutex.head[0] != 0;
    put(&r->after, wq_k_mutex_lock_count_get(&mutex));
    put(&r->after, wq_k_mutex_owner_get(&mutex));
    hold_queue(r, mutex.head[3], mutex.entry);
    if (wq_k_mutex_is_locked(&mutex) != locked || wq_k_mutex_num_waiters(&mutex) != mutex.head[3] ||
        !wq_k_mutex_audit(&mutex))
        r->broken = "whether it is locked, number of waiters or audit is wrong";
}

static void mutex_init(const long long *in, struct result *r)
{
    (void)in;
    answer(r, wq_k_mutex_init(&mutex));
    mutex_hold(r);
}

static void mutex_try_lock(const long long *in, struct result *r)
{
    answer(r, wq_k_mutex_try_lock(&mutex, (uint32_t)in[0]));
    mutex_hold(r);
}

static void mutex_lock_blocking(const long long *in, struct result *r)
{
    struct wq_thread t = running(in[0], in[1]);
    int32_t code = wq_k_mutex_lock(&mutex, &t);
    answer(r, code);
    check_waits(r, &t, code == WQ_WAITS);
    mutex_hold(r);
}

static void mutex_unlock(const long long *in, struct result *r)
{
    wq_woken who;
    int32_t code = wq_k_mutex_unlock(&mutex, (uint32_t)in[0], &who);
    answer(r, code);
    if (code == WQ_UNLOCK_TRANSFERRED)
        answer_woken(r, who);
    mutex_hold(r);
}

static void mutex_lock_decide(const long long *in, struct result *r)
{
    answer(r, wq_mutex_lock_decide((uint32_t)in[0], in[1] != 0, in[2] != 0, in[3] != 0));
}

static void mutex_unlock_decide(const long long *in, struct result *r)
{
    answer(r, wq_mutex_unlock_decide((uint32_t)in[0], in[1] != 0, in[2] != 0));
}

/* ---- Condition variable, with the mutex --------------------------------------------------- */

static void condvar_hold(struct result *r)
{
    uint32_t waiting = condvar.head[0];
    hold_queue(r, waiting, condvar.entry);
    mutex_hold(r);
    if (wq_k_condvar_num_waiters(&condvar) != waiting || wq_k_condvar_has_waiters(&condvar) != (waiting > 0) ||
        !wq_k_condvar_audit(&condvar))
        r->broken = "number of waiters, whether there are any, or audit is wrong";
}

static void condvar_init(const long long *in, struct result *r)
{
    (void)in;
    answer(r, wq_k_condvar_init(&condvar));
    condvar_hold(r);
}

static void condvar_wait(const long long *in, struct result *r)
{
    struct wq_thread t = running(in[0], in[1]);
    wq_woken who;
    int32_t code = wq_k_condvar_wait(&condvar, &mutex, &t, &who);
    answer(r, code);
    if (code == WQ_UNLOCK_TRANSFERRED)
        answer_woken(r, who);
    check_waits(r, &t, code > 0);
    condvar_hold(r);
}

static void condvar_signal(const long long *in, struct result *r)
{
    wq_woken who;
    int32_t code = wq_k_condvar_signal(&condvar, &who);
    (void)in;
    answer(r, code);
    if (code == 1)
        answer_woken(r, who);
    condvar_hold(r);
}

static void condvar_broadcast(const long long *in, struct result *r)
{
    struct wq_condvar before = condvar;
    wq_woken out[WQ_MAX_WAITERS] = {0};
    (void)in;
    answer(r, wq_k_condvar_broadcast(&condvar, out, WQ_MAX_WAITERS));
    check_woken(r, before.head[0], before.entry, out, WQ_OK);
    condvar_hold(r);
}

static void condvar_signal_decide(const long long *in, struct result *r)
{
    answer(r, wq_condvar_signal_decide(in[0] != 0));
}

static void condvar_broadcast_decide(const long long *in, struct result *r)
{
    answer(r, wq_condvar_broadcast_decide((uint32_t)in[0]));
}

static void condvar_wait_decide(const long long *in, struct result *r)
{
    answer(r, wq_condvar_wait_decide(in[0] != 0));
}

/* ---- Futex -------------------------------------------------------------------------------- */

static void futex_hold(struct result *r)
{
    put(&r->after, wq_k_futex_val_get(&futex));
    hold_queue(r, futex.head[1], futex.entry);
    if (wq_k_futex_num_waiters(&futex) != futex.head[1] || !wq_k_futex_audit(&futex))
        r->broken = "number of waiters or audit is wrong";
}

static void futex_init(const long long *in, struct result *r)
{
    answer(r, wq_k_futex_init(&futex, (uint32_t)in[0]));
    futex_hold(r);
}

static void futex_wait(const long long *in, struct result *r)
{
    struct wq_thread t = running(in[1], in[2]);
    int32_t code = wq_k_futex_wait(&futex, (uint32_t)in[0], &t);
    answer(r, code);
    check_waits(r, &t, code == WQ_WAITS);
    futex_hold(r);
}

static void futex_wake(const long long *in, struct result *r)
{
    wq_woken out[WQ_MAX_WAITERS] = {0};
    int32_t code = wq_k_futex_wake(&futex, in[0] != 0, out, WQ_MAX_WAITERS);
    answer(r, code);
    for (int32_t i = 0; i < code && i < WQ_MAX_WAITERS; i++)
        answer_woken(r, out[i]);
    futex_hold(r);
}

static void futex_val_set(const long long *in, struct result *r)
{
    answer(r, wq_k_futex_val_set(&futex, (uint32_t)in[0]));
    futex_hold(r);
}

static void futex_wait_decide(const long long *in, struct result *r)
{
    answer(r, wq_futex_wait_decide((uint32_t)in[0], (uint32_t)in[1]));
}

static void futex_wake_decide(const long long *in, struct result *r)
{
    uint32_t remaining = UINT32_MAX;
    answer(r, wq_futex_wake_decide((uint32_t)in[0], in[1] != 0, &remaining));
    put(&r->after, remaining);
}

/* ---- The file ----------------------------------------------------------------------------- */

static const struct {
    const char *name;
    long long value;
} constants[] = {
    {"OK", WQ_OK},
    {"EPERM", WQ_EPERM},
    {"ENOENT", WQ_ENOENT},
    {"EAGAIN", WQ_EAGAIN},
    {"ENOMEM", WQ_ENOMEM},
    {"EBUSY", WQ_EBUSY},
    {"EINVAL", WQ_EINVAL},
    {"EPIPE", WQ_EPIPE},
    {"ENOMSG", WQ_ENOMSG},
    {"EDEADLK", WQ_EDEADLK},
    {"EOVERFLOW", WQ_EOVERFLOW},
    {"ECANCELED", WQ_ECANCELED},
    {"MAX_PRIORITY", WQ_MAX_PRIORITY},
    {"MAX_WAITERS", WQ_MAX_WAITERS},
    {"WAIT_ANY", WQ_WAIT_ANY},
    {"WAIT_ALL", WQ_WAIT_ALL},
    {"K_FOREVER_TICKS", (long long)WQ_K_FOREVER_TICKS},
    {"K_NO_WAIT_TICKS", WQ_K_NO_WAIT_TICKS},
};

static const struct operation operations[] = {
    {"priority.new", 1, priority_new},
    {"priority.get", 1, priority_get},
    {"priority.is_higher_than", 2, priority_is_higher_than},
    {"priority.is_higher_or_equal", 2, priority_is_higher_or_equal},
    {"thread.init", 2, thread_init},
    {"thread.dispatch", 0, thread_dispatch},
    {"thread.block", 0, thread_block},
    {"thread.wake", 1, thread_wake},
    {"thread.is_blocked", 0, thread_is_blocked},
    {"wait_queue.new", 0, wait_queue_new},
    {"wait_queue.pend", 2, wait_queue_pend},
    {"wait_queue.unpend_first", 1, wait_queue_unpend_first},
    {"wait_queue.unpend_all", 1, wait_queue_unpend_all},
    {"sem.init", 2, sem_init},
    {"sem.give", 0, sem_give},
    {"sem.try_take", 0, sem_try_take},
    {"sem.take_blocking", 2, sem_take_blocking},
    {"sem.reset", 0, sem_reset},
    {"sem.give_decide", 3, sem_give_decide},
    {"sem.take_decide", 2, sem_take_decide},
    {"mutex.init", 0, mutex_init},
    {"mutex.try_lock", 1, mutex_try_lock},
    {"mutex.lock_blocking", 2, mutex_lock_blocking},
    {"mutex.unlock", 1, mutex_unlock},
    {"mutex.lock_decide", 4, mutex_lock_decide},
    {"mutex.unlock_decide", 3, mutex_unlock_decide},
    {"condvar.init", 0, condvar_init},
    {"condvar.wait", 2, condvar_wait},
    {"condvar.signal", 0, condvar_signal},
    {"condvar.broadcast", 0, condvar_broadcast},
    {"condvar.signal_decide", 1, condvar_signal_decide},
    {"condvar.broadcast_decide", 1, condvar_broadcast_decide},
    {"condvar.wait_decide", 1, condvar_wait_decide},
    {"futex.init", 1, futex_init},
    {"futex.wait", 3, futex_wait},
    {"futex.wake", 1, futex_wake},
    {"futex.val_set", 1, futex_val_set},
    {"futex.wait_decide", 2, futex_wait_decide},
    {"futex.wake_decide", 2, futex_wake_decide},
    {0},
};

#define COUNT(table) (sizeof(table) / sizeof(table)[0])

static bool run_one(const struct operation *table, const char *name, const struct numbers *in, struct result *r)
{
    for (; table->name; table++)
        if (strcmp(name, table->name) == 0 && in->n == table->inputs) {
            table->replay(in->v, r);
            return true;
        }
    return false;
}

/* Does what the line says; false if there is no such operation. */
static bool run(const char *name, const struct numbers *in, struct result *r)
{
    for (size_t i = 0; i < COUNT(constants); i++)
        if (strcmp(name, constants[i].name) == 0 && in->n == 0) {
            answer(r, constants[i].value);
            return true;
        }
    return run_one(operations, name, in, r) || run_one(lent_operations, name, in, r) ||
           run_one(plain_operations, name, in, r);
}

/* Reads numbers up to the given sign or the end of the line; false for anything else. One from 2^63 on is kept as the
 * number with the same bits. */
static bool read_numbers(char **text, char end, struct numbers *to)
{
    for (;;) {
        *text += strspn(*text, " ");
        if (**text == '\0' || **text == end) {
            *text += **text != '\0';
            return true;
        }
        char *rest;
        put(to, **text == '-' ? strtoll(*text, &rest, 10) : (long long)strtoull(*text, &rest, 10));
        if (rest == *text)
            return false;
        *text = rest;
    }
}

static bool same(const struct numbers *a, const struct numbers *b)
{
    return a->n == b->n && memcmp(a->v, b->v, (size_t)a->n * sizeof a->v[0]) == 0;
}

static void print_numbers(const struct numbers *x)
{
    for (int i = 0; i < x->n; i++)
        printf(" %lld", x->v[i]);
}

static bool replay_line(int number, char *line)
{
    char shown[MAX_LINE];
    struct numbers in = {0};
    struct result recorded = {0}, ours = {0};
    strcpy(shown, line);
    size_t length = strcspn(line, " ");
    char *rest = line + length + (line[length] != '\0');
    line[length] = '\0';
    if (!read_numbers(&rest, '=', &in) || !read_numbers(&rest, ';', &recorded.answer) ||
        !read_numbers(&rest, '\0', &recorded.after) || !run(line, &in, &ours)) {
        printf("line %d: cannot read: %s\n", number, shown);
        return false;
    }
    if (!ours.broken && same(&ours.answer, &recorded.answer) && same(&ours.after, &recorded.after))
        return true;
    printf("line %d: %s\n    ours:", number, shown);
    print_numbers(&ours.answer);
    printf(" ;");
    print_numbers(&ours.after);
    printf("%s%s\n", ours.broken ? ", and " : "", ours.broken ? ours.broken : "");
    return false;
}

/* A test ends at its first deviation; what follows in it would only repeat it. */
static int replay(FILE *file)
{
    char line[MAX_LINE];
    int tests = 0, failed = 0, operations_done = 0;
    bool fine = false;
    for (int number = 1; fgets(line, sizeof line, file); number++) {
        line[strcspn(line, "\n")] = '\0';
        if (line[0] == '#')
            continue;
        if (strncmp(line, "test ", 5) == 0) {
            tests++;
            fine = true;
        } else if (fine) {
            operations_done++;
            fine = replay_line(number, line);
            failed += !fine;
        }
    }
    printf("%d recorded operations\n", operations_done);
    if (tests == 0)
        tests = failed = 1;
    printf("%d passed, %d failed\n", tests - failed, failed);
    return failed != 0;
}

int main(int argc, char **argv)
{
    FILE *file = argc == 2 ? fopen(argv[1], "r") : NULL;
    if (!file) {
        fprintf(stderr, "usage: replay recorded.txt\n");
        return 2;
    }
    return replay(file);
}
