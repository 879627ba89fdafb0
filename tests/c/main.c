/* Runs all tests. The last line is "N passed, M failed".
 *
 * SPDX-License-Identifier: Apache-2.0
 */
#include <inttypes.h>
#include <stdio.h>
#include <string.h>

#include "check.h"

struct memory m;
static struct memory kept;
static bool faulty;

void check(bool holds, const char *file, int line, const char *what)
{
    if (holds)
        return;
    faulty = true;
    printf("%s:%d: not so: %s\n", file, line, what);
}

void check_equal(int64_t got, int64_t wanted, const char *file, int line, const char *what)
{
    if (got == wanted)
        return;
    faulty = true;
    printf("%s:%d: not so: %s; %" PRId64 " and %" PRId64 "\n", file, line, what, got, wanted);
}

void keep(void) { memcpy(&kept, &m, sizeof m); }

bool stays(void) { return memcmp(&kept, &m, sizeof m) == 0; }

void becomes(const void *part, const void *now, size_t size)
{
    memcpy((unsigned char *)&kept + ((const unsigned char *)part - (const unsigned char *)&m), now, size);
}

void word_becomes(const uint32_t *part, uint32_t now) { becomes(part, &now, sizeof now); }

void long_becomes(const uint64_t *part, uint64_t now) { becomes(part, &now, sizeof now); }

void allow(const void *part, size_t size) { becomes(part, part, size); }

static bool filled(const void *from, const void *to)
{
    for (const unsigned char *p = from; p < (const unsigned char *)to; p++)
        if (*p != FILL)
            return false;
    return true;
}

#define BEFORE(name) {&m.before_##name, &m.name}

static const struct gap {
    const void *from, *to;
} gaps[] = {
    BEFORE(thread),
    BEFORE(queue),
    {&m.queue.len + 1, m.queue.entry},
    BEFORE(sem),
    {m.sem.head + 3, m.sem.entry},
    BEFORE(mutex),
    {m.mutex.head + 4, m.mutex.entry},
    BEFORE(condvar),
    {m.condvar.head + 1, m.condvar.entry},
    BEFORE(futex),
    {m.futex.head + 2, m.futex.entry},
    BEFORE(who),
    BEFORE(out),
    BEFORE(ring),
    {m.ring.head + 3, &m.ring.buf},
    BEFORE(msgq),
    BEFORE(pipe),
    BEFORE(stack),
    BEFORE(slab),
    BEFORE(event),
    BEFORE(timer),
    BEFORE(timeout),
    BEFORE(buf),
    BEFORE(src),
    BEFORE(got),
    BEFORE(word),
    BEFORE(link),
    BEFORE(byte),
    BEFORE(data),
    BEFORE(first),
    BEFORE(second),
    {&m.last, &m + 1},
};

static bool guards_stay(void)
{
    for (size_t i = 0; i < COUNT_OF(gaps); i++)
        if (!filled(gaps[i].from, gaps[i].to))
            return false;
    return true;
}

struct wq_thread *running(uint32_t id, uint32_t priority)
{
    m.thread = (struct wq_thread){id, priority, WQ_RUNNING, 0};
    return &m.thread;
}

bool queue_is(const uint64_t *entry, uint32_t len, const uint32_t *ids, size_t count)
{
    if (len != count)
        return false;
    for (size_t i = 0; i < count; i++)
        if ((uint32_t)entry[count - 1 - i] != ids[i])
            return false;
    return true;
}

size_t all_in_order(uint32_t *ids)
{
    size_t count = 0;
    for (uint32_t priority = 0; priority < WQ_MAX_PRIORITY; priority++)
        for (uint32_t id = 31 - priority; id < WQ_MAX_WAITERS; id += WQ_MAX_PRIORITY)
            ids[count++] = id;
    return count;
}

bool handed_out(int32_t result, const uint32_t *ids, size_t count)
{
    for (size_t i = 0; i < count; i++)
        if (wq_woken_id(m.out[i]) != ids[i] || wq_woken_result(m.out[i]) != result)
            return false;
    return memcmp(&m.out[count], &kept.out[count], (PLACE - count) * sizeof m.out[0]) == 0;
}

int main(void)
{
    const struct group *groups[] = {&thread_group,  &wait_queue_group, &sem_group,      &mutex_group,
                                    &condvar_group, &futex_group,      &ring_buf_group, &msgq_group,
                                    &pipe_group,    &stack_group,      &mem_slab_group, &event_group,
                                    &timer_group,   &timeout_group};
    unsigned passed = 0, failed = 0;

    for (size_t g = 0; g < COUNT_OF(groups); g++) {
        for (size_t i = 0; i < groups[g]->count; i++) {
            const struct test *test = &groups[g]->tests[i];
            faulty = false;
            memset(&m, FILL, sizeof m);
            test->run();
            CHECK(guards_stay());
            printf("%s %s: %s\n", groups[g]->name, test->name, faulty ? "FAILED" : "ok");
            if (faulty)
                failed++;
            else
                passed++;
        }
    }
    printf("%u passed, %u failed\n", passed, failed);
    return failed != 0;
}
