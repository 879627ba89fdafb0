/* Event flags, timer, timeout and the decisions of a message queue in C, under the names of waitqueue.h. With CHECKED 1
 * they make the refusals that the header lists, in that order; with CHECKED 0 only those that are no mistake of the
 * caller: full, empty.
 *
 * SPDX-License-Identifier: Apache-2.0
 */
#include "waitqueue.h"

/* ---- Event flags ------------------------------------------------------------------------------ */

int32_t wq_event_init(uint32_t *head)
{
    head[0] = 0;
    return WQ_OK;
}

int64_t wq_event_post(uint32_t *head, uint32_t new_events)
{
    return head[0] |= new_events;
}

int64_t wq_event_set(uint32_t *head, uint32_t new_events)
{
    uint32_t before = head[0];
    head[0] = new_events;
    return before;
}

int64_t wq_event_clear(uint32_t *head, uint32_t clear_events)
{
    return head[0] &= ~clear_events;
}

int32_t wq_event_wait_check_any(const uint32_t *head, uint32_t desired)
{
    return (head[0] & desired) != 0;
}

int32_t wq_event_wait_check_all(const uint32_t *head, uint32_t desired)
{
    return (head[0] & desired) == desired;
}

/* ---- Timer ------------------------------------------------------------------------------------ */

enum { STATUS, PERIOD, RUNS };

int32_t wq_timer_init(uint32_t *head, uint32_t period)
{
    head[STATUS] = 0;
    head[PERIOD] = period;
    head[RUNS] = 0;
    return WQ_OK;
}

int32_t wq_timer_start(uint32_t *head)
{
    head[STATUS] = 0;
    head[RUNS] = 1;
    return WQ_OK;
}

int32_t wq_timer_stop(uint32_t *head)
{
    head[STATUS] = 0;
    head[RUNS] = 0;
    return WQ_OK;
}

int64_t wq_timer_expire(uint32_t *head)
{
    if (CHECKED && head[STATUS] == UINT32_MAX)
        return WQ_EOVERFLOW;
    return ++head[STATUS];
}

int64_t wq_timer_status_get(uint32_t *head)
{
    uint32_t status = head[STATUS];
    head[STATUS] = 0;
    return status;
}

/* ---- Timeout ---------------------------------------------------------------------------------- */

enum { DEADLINE, ACTIVE, CLOCK };

static inline bool timeout_malformed(const uint64_t *head)
{
    return head[CLOCK] == WQ_K_FOREVER_TICKS ||
           (head[ACTIVE] != 0 && head[DEADLINE] != WQ_K_NO_WAIT_TICKS && head[DEADLINE] < head[CLOCK]);
}

/* Whether the clock would reach the end after so many ticks. */
static inline bool too_far(const uint64_t *head, uint64_t ticks)
{
    return WQ_K_FOREVER_TICKS - head[CLOCK] <= ticks;
}

int32_t wq_timeout_init(uint64_t *head, uint64_t current_tick)
{
    if (CHECKED && current_tick == WQ_K_FOREVER_TICKS)
        return WQ_EINVAL;
    head[DEADLINE] = 0;
    head[ACTIVE] = 0;
    head[CLOCK] = current_tick;
    return WQ_OK;
}

int32_t wq_timeout_add(uint64_t *head, uint64_t duration, uint64_t *deadline)
{
    if (CHECKED) {
        if (timeout_malformed(head))
            return WQ_EINVAL;
        if (head[ACTIVE] != 0)
            return WQ_EBUSY;
        if (too_far(head, duration))
            return WQ_EINVAL;
    }
    uint64_t due = head[CLOCK] + duration;
    head[DEADLINE] = due;
    head[ACTIVE] = 1;
    *deadline = due;
    return WQ_OK;
}

int32_t wq_timeout_abort(uint64_t *head)
{
    if (CHECKED && timeout_malformed(head))
        return WQ_EINVAL;
    if (head[ACTIVE] == 0)
        return WQ_EINVAL;
    head[ACTIVE] = 0;
    return WQ_OK;
}

int32_t wq_timeout_announce(uint64_t *head, uint64_t ticks)
{
    if (CHECKED && (timeout_malformed(head) || too_far(head, ticks)))
        return WQ_EINVAL;
    head[CLOCK] += ticks;
    if (head[ACTIVE] == 0 || head[CLOCK] < head[DEADLINE])
        return 0;
    head[ACTIVE] = 0;
    return 1;
}

/* ---- Message queue, on plain numbers ---------------------------------------------------------- */

static inline bool numbers_malformed(uint32_t idx, uint32_t used, uint32_t max)
{
    return max == 0 || idx >= max || used > max;
}

static inline uint32_t next_slot(uint32_t idx, uint32_t max)
{
    return idx + 1 == max ? 0 : idx + 1;
}

int32_t wq_msgq_put_decide(uint32_t write_idx, uint32_t used_msgs, uint32_t max_msgs, bool has_waiter, bool is_no_wait,
                           uint32_t *new_write_idx, uint32_t *new_used)
{
    if (CHECKED && (numbers_malformed(write_idx, used_msgs, max_msgs) || (has_waiter && used_msgs != 0)))
        return WQ_EINVAL;
    if (used_msgs == max_msgs && is_no_wait)
        return WQ_ENOMSG;
    if (used_msgs == max_msgs || has_waiter) {
        *new_write_idx = write_idx;
        *new_used = used_msgs;
        return used_msgs == max_msgs ? WQ_PUT_PEND : WQ_PUT_WAKE_READER;
    }
    *new_write_idx = next_slot(write_idx, max_msgs);
    *new_used = used_msgs + 1;
    return WQ_PUT_STORE;
}

int32_t wq_msgq_get_decide(uint32_t read_idx, uint32_t used_msgs, uint32_t max_msgs, bool has_waiter, bool is_no_wait,
                           uint32_t *new_read_idx, uint32_t *new_used)
{
    if (CHECKED && (numbers_malformed(read_idx, used_msgs, max_msgs) || (has_waiter && used_msgs != max_msgs)))
        return WQ_EINVAL;
    if (used_msgs == 0) {
        if (is_no_wait)
            return WQ_ENOMSG;
        *new_read_idx = read_idx;
        *new_used = used_msgs;
        return WQ_GET_PEND;
    }
    *new_read_idx = next_slot(read_idx, max_msgs);
    *new_used = used_msgs - 1;
    return has_waiter ? WQ_GET_WAKE_WRITER : WQ_GET_READ;
}
