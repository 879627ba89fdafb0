/* Event flags, timer, timeout, and the decisions of a message queue at which somebody waits. Every form has the names of
 * waitqueue.h.
 *
 * SPDX-License-Identifier: Apache-2.0
 */
#include "bench.h"
#include "waitqueue.h"

enum { SLOTS = 8, PERIOD = 10 };

static struct wq_event event;
static struct wq_timer timer;
static struct wq_timeout timeout;

static void choose_nothing(const char *how)
{
    (void)how;
}

/* ---- Event flags ------------------------------------------------------------------------------ */

static void prepare_event(uint32_t number)
{
    (void)number;
    expect(wq_event_init(event.head) == WQ_OK, "an event is not made");
    expect(wq_event_post(event.head, 0x55) == 0x55, "no flag is posted");
}

static NOINLINE uint32_t run_event_post_clear(uint32_t times)
{
    uint32_t sum = 1;
    for (uint32_t i = 0; i < times; i++) {
        int64_t posted = wq_event_post(event.head, i);
        int64_t left = wq_event_clear(event.head, i >> 1);
        sum = mix(sum, (uint32_t)posted, (int32_t)left);
    }
    return sum;
}

static NOINLINE uint32_t run_event_set(uint32_t times)
{
    uint32_t sum = 1;
    for (uint32_t i = 0; i < times; i++)
        sum = mix(sum, i, (int32_t)wq_event_set(event.head, i));
    return sum;
}

static NOINLINE uint32_t run_event_wait_check(uint32_t times)
{
    uint32_t sum = 1;
    for (uint32_t i = 0; i < times; i++) {
        int32_t any = wq_event_wait_check_any(event.head, i);
        int32_t all = wq_event_wait_check_all(event.head, i);
        sum = mix(sum, i, 2 * any + all);
    }
    return sum;
}

static uint32_t rest_of_event(uint32_t sum)
{
    return mix(sum, event.head[0], 0);
}

/* ---- Timer and timeout ------------------------------------------------------------------------ */

static void prepare_timer(uint32_t number)
{
    (void)number;
    expect(wq_timer_init(timer.head, PERIOD) == WQ_OK && wq_timer_start(timer.head) == WQ_OK, "a timer does not run");
}

static NOINLINE uint32_t run_timer_expire_status(uint32_t times)
{
    uint32_t sum = 1;
    for (uint32_t i = 0; i < times; i++) {
        int64_t expired = wq_timer_expire(timer.head);
        int64_t status = wq_timer_status_get(timer.head);
        sum = mix(sum, (uint32_t)expired, (int32_t)status);
    }
    return sum;
}

static NOINLINE uint32_t run_timer_start_stop(uint32_t times)
{
    uint32_t sum = 1;
    for (uint32_t i = 0; i < times; i++) {
        int32_t started = wq_timer_start(timer.head);
        int32_t stopped = wq_timer_stop(timer.head);
        sum = mix(sum, i, 2 * started + stopped);
    }
    return sum;
}

static uint32_t rest_of_timer(uint32_t sum)
{
    return mix(mix(sum, timer.head[0], 0), timer.head[1], (int32_t)timer.head[2]);
}

static void prepare_timeout(uint32_t number)
{
    (void)number;
    expect(wq_timeout_init(timeout.head, 1000) == WQ_OK, "a timeout is not made");
}

/* It fires at the announcement of its last tick. */
static NOINLINE uint32_t run_timeout_add_announce(uint32_t times)
{
    uint64_t deadline = 0;
    uint32_t sum = 1;
    for (uint32_t i = 0; i < times; i++) {
        int32_t added = wq_timeout_add(timeout.head, PERIOD, &deadline);
        int32_t fired = wq_timeout_announce(timeout.head, PERIOD);
        sum = mix(sum, (uint32_t)deadline, 2 * added + fired);
    }
    return sum;
}

static NOINLINE uint32_t run_timeout_add_abort(uint32_t times)
{
    uint64_t deadline = 0;
    uint32_t sum = 1;
    for (uint32_t i = 0; i < times; i++) {
        int32_t added = wq_timeout_add(timeout.head, i, &deadline);
        int32_t aborted = wq_timeout_abort(timeout.head);
        sum = mix(sum, (uint32_t)deadline, 2 * added + aborted);
    }
    return sum;
}

/* It is active, and a tick brings it no end. */
static void prepare_active_timeout(uint32_t number)
{
    uint64_t deadline;
    prepare_timeout(number);
    expect(wq_timeout_add(timeout.head, UINT64_C(1) << 40, &deadline) == WQ_OK, "a timeout is not active");
}

static NOINLINE uint32_t run_timeout_announce(uint32_t times)
{
    uint32_t sum = 1;
    for (uint32_t i = 0; i < times; i++)
        sum = mix(sum, i, wq_timeout_announce(timeout.head, 1));
    return sum;
}

static uint32_t rest_of_timeout(uint32_t sum)
{
    for (int i = 0; i < 3; i++)
        sum = mix(sum, (uint32_t)timeout.head[i], 0);
    return sum;
}

/* ---- Hand-over of messages --------------------------------------------------------------------
 *
 * A reader waits at an empty queue, and is handed the message; a writer waits at a full one, and its message goes in
 * behind the one that is read. */

static uint32_t write_idx, read_idx, used;

static void prepare_numbers(uint32_t number)
{
    (void)number;
    write_idx = read_idx = 3;
    used = 0;
}

static NOINLINE uint32_t run_msgq_hand_over(uint32_t times)
{
    uint32_t sum = 1;
    for (uint32_t i = 0; i < times; i++) {
        int32_t put = wq_msgq_put_decide(write_idx, 0, SLOTS, true, false, &write_idx, &used);
        int32_t get = wq_msgq_get_decide(read_idx, SLOTS, SLOTS, true, false, &read_idx, &used);
        sum = mix(sum, read_idx, 4 * put + get);
    }
    return sum;
}

static uint32_t rest_of_numbers(uint32_t sum)
{
    return mix(mix(sum, write_idx, 0), read_idx, (int32_t)used);
}

/* ---- Cases ------------------------------------------------------------------------------------ */

static const struct bench cases[] = {
    {"event post+clear", 0, "-", prepare_event, run_event_post_clear, rest_of_event, SAMPLE, SAMPLE},
    {"event set", 0, "-", prepare_event, run_event_set, rest_of_event, SAMPLE, SAMPLE},
    {"event wait_check", 0, "-", prepare_event, run_event_wait_check, rest_of_event, SAMPLE, SAMPLE},
    {"timer start+stop", 0, "-", prepare_timer, run_timer_start_stop, rest_of_timer, SAMPLE, SAMPLE},
    {"timer expire+status", 0, "-", prepare_timer, run_timer_expire_status, rest_of_timer, SAMPLE, SAMPLE},
    {"timeout add+announce", 0, "-", prepare_timeout, run_timeout_add_announce, rest_of_timeout, SAMPLE, SAMPLE},
    {"timeout add+abort", 0, "-", prepare_timeout, run_timeout_add_abort, rest_of_timeout, SAMPLE, SAMPLE},
    {"timeout announce", 0, "-", prepare_active_timeout, run_timeout_announce, rest_of_timeout, SAMPLE, SAMPLE},
    {"hand-over put+get", 0, "-", prepare_numbers, run_msgq_hand_over, rest_of_numbers, SAMPLE, SAMPLE},
};

const struct group number_group = {cases, COUNT_OF(cases), choose_nothing};
