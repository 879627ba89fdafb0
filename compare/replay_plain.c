/* Replays the objects that are a few words, and nothing else. */
#include "replay.h"

static struct wq_event event;
static struct wq_timer timer;
static struct wq_timeout timeout;

/* ---- Event flags -------------------------------------------------------------------------- */

static void event_did(struct result *r, int64_t code)
{
    answer(r, code);
    put(&r->after, wq_k_event_events_get(&event));
}

static void event_init(const long long *in, struct result *r)
{
    (void)in;
    event_did(r, wq_k_event_init(&event));
}

static void event_post(const long long *in, struct result *r)
{
    event_did(r, wq_k_event_post(&event, (uint32_t)in[0]));
}

static void event_set(const long long *in, struct result *r)
{
    event_did(r, wq_k_event_set(&event, (uint32_t)in[0]));
}

static void event_set_masked(const long long *in, struct result *r)
{
    event_did(r, wq_k_event_set_masked(&event, (uint32_t)in[0], (uint32_t)in[1]));
}

static void event_clear(const long long *in, struct result *r)
{
    event_did(r, wq_k_event_clear(&event, (uint32_t)in[0]));
}

static void event_wait_check_any(const long long *in, struct result *r)
{
    event_did(r, wq_k_event_wait_check_any(&event, (uint32_t)in[0]));
}

static void event_wait_check_all(const long long *in, struct result *r)
{
    event_did(r, wq_k_event_wait_check_all(&event, (uint32_t)in[0]));
}

static void event_wait_decide(const long long *in, struct result *r)
{
    uint32_t matched;
    int32_t code = wq_event_wait_decide((uint32_t)in[0], (uint32_t)in[1], (uint32_t)in[2], in[3] != 0, &matched);
    decided(r, code, &matched, 1);
}

static void event_post_decide(const long long *in, struct result *r)
{
    answer(r, wq_event_post_decide((uint32_t)in[0], (uint32_t)in[1], (uint32_t)in[2]));
}

/* ---- Timer -------------------------------------------------------------------------------- */

static void timer_did(struct result *r, int64_t code)
{
    answer(r, code);
    put(&r->after, wq_k_timer_status_peek(&timer));
    put(&r->after, wq_k_timer_period_get(&timer));
    put(&r->after, wq_k_timer_is_running(&timer));
}

static void timer_init(const long long *in, struct result *r)
{
    timer_did(r, wq_k_timer_init(&timer, (uint32_t)in[0]));
}

static void timer_start(const long long *in, struct result *r)
{
    (void)in;
    timer_did(r, wq_k_timer_start(&timer));
}

static void timer_stop(const long long *in, struct result *r)
{
    (void)in;
    timer_did(r, wq_k_timer_stop(&timer));
}

static void timer_expire(const long long *in, struct result *r)
{
    (void)in;
    timer_did(r, wq_k_timer_expire(&timer));
}

static void timer_status_get(const long long *in, struct result *r)
{
    (void)in;
    timer_did(r, wq_k_timer_status_get(&timer));
}

static void timer_expire_decide(const long long *in, struct result *r)
{
    uint32_t new;
    int32_t code = wq_timer_expire_decide((uint32_t)in[0], (uint32_t)in[1], &new);
    decided(r, code, &new, 1);
}

/* ---- Timeout ------------------------------------------------------------------------------ */

typedef int32_t reads(const struct wq_timeout *t, uint64_t *number);

static void hold_number(struct result *r, reads *call)
{
    uint64_t number = 0;
    if (call(&timeout, &number) != WQ_OK)
        r->broken = "a call that only reads refuses";
    put(&r->after, (long long)number);
}

static void timeout_holds(struct result *r)
{
    hold_number(r, wq_k_timeout_remaining);
    hold_number(r, wq_k_timeout_expires);
    put(&r->after, wq_k_timeout_is_active(&timeout));
    put(&r->after, wq_k_timeout_is_forever(&timeout));
    put(&r->after, wq_k_timeout_is_no_wait(&timeout));
    hold_number(r, wq_k_timeout_now);
}

static void timeout_did(struct result *r, int32_t code)
{
    answer(r, code);
    timeout_holds(r);
}

/* A call that writes a number, and none where it refuses. */
static void timeout_wrote(struct result *r, int32_t code, const uint64_t *number)
{
    answer(r, code);
    if (code >= 0)
        answer(r, (long long)*number);
    timeout_holds(r);
}

static void timeout_init(const long long *in, struct result *r)
{
    timeout_did(r, wq_k_timeout_init(&timeout, (uint64_t)in[0]));
}

static void timeout_add(const long long *in, struct result *r)
{
    uint64_t deadline;
    int32_t code = wq_k_timeout_add(&timeout, (uint64_t)in[0], &deadline);
    timeout_wrote(r, code, &deadline);
}

static void timeout_add_absolute(const long long *in, struct result *r)
{
    timeout_did(r, wq_k_timeout_add_absolute(&timeout, (uint64_t)in[0]));
}

static void timeout_add_forever(const long long *in, struct result *r)
{
    (void)in;
    timeout_did(r, wq_k_timeout_add_forever(&timeout));
}

static void timeout_add_no_wait(const long long *in, struct result *r)
{
    (void)in;
    timeout_did(r, wq_k_timeout_add_no_wait(&timeout));
}

static void timeout_abort(const long long *in, struct result *r)
{
    (void)in;
    timeout_did(r, wq_k_timeout_abort(&timeout));
}

static void timeout_announce(const long long *in, struct result *r)
{
    timeout_did(r, wq_k_timeout_announce(&timeout, (uint64_t)in[0]));
}

static void timeout_timepoint_calc(const long long *in, struct result *r)
{
    uint64_t timepoint;
    int32_t code = wq_k_timeout_timepoint_calc(&timeout, (uint64_t)in[0], &timepoint);
    timeout_wrote(r, code, &timepoint);
}

static void timeout_timepoint_timeout(const long long *in, struct result *r)
{
    uint64_t ticks;
    int32_t code = wq_k_timeout_timepoint_timeout(&timeout, (uint64_t)in[0], &ticks);
    timeout_wrote(r, code, &ticks);
}

static void timeout_decided(struct result *r, int32_t code, const uint64_t *number)
{
    answer(r, code);
    if (code >= 0)
        put(&r->after, (long long)*number);
}

static void timeout_add_decide(const long long *in, struct result *r)
{
    uint64_t deadline;
    int32_t code = wq_timeout_add_decide((uint64_t)in[0], (uint64_t)in[1], &deadline);
    timeout_decided(r, code, &deadline);
}

static void timeout_abort_decide(const long long *in, struct result *r)
{
    answer(r, wq_timeout_abort_decide(in[0] != 0));
}

static void timeout_announce_decide(const long long *in, struct result *r)
{
    uint64_t tick;
    int32_t code = wq_timeout_announce_decide((uint64_t)in[0], (uint64_t)in[1], (uint64_t)in[2], in[3] != 0, &tick);
    timeout_decided(r, code, &tick);
}

const struct operation plain_operations[] = {
    {"event.init", 0, event_init},
    {"event.post", 1, event_post},
    {"event.set", 1, event_set},
    {"event.set_masked", 2, event_set_masked},
    {"event.clear", 1, event_clear},
    {"event.wait_check_any", 1, event_wait_check_any},
    {"event.wait_check_all", 1, event_wait_check_all},
    {"event.wait_decide", 4, event_wait_decide},
    {"event.post_decide", 3, event_post_decide},
    {"timer.init", 1, timer_init},
    {"timer.start", 0, timer_start},
    {"timer.stop", 0, timer_stop},
    {"timer.expire", 0, timer_expire},
    {"timer.status_get", 0, timer_status_get},
    {"timer.expire_decide", 2, timer_expire_decide},
    {"timeout.init", 1, timeout_init},
    {"timeout.add", 1, timeout_add},
    {"timeout.add_absolute", 1, timeout_add_absolute},
    {"timeout.add_forever", 0, timeout_add_forever},
    {"timeout.add_no_wait", 0, timeout_add_no_wait},
    {"timeout.abort", 0, timeout_abort},
    {"timeout.announce", 1, timeout_announce},
    {"timeout.timepoint_calc", 1, timeout_timepoint_calc},
    {"timeout.timepoint_timeout", 1, timeout_timepoint_timeout},
    {"timeout.add_decide", 2, timeout_add_decide},
    {"timeout.abort_decide", 1, timeout_abort_decide},
    {"timeout.announce_decide", 4, timeout_announce_decide},
    {0},
};
