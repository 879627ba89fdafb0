/* The timer.
 *
 * SPDX-License-Identifier: Apache-2.0
 */
#include "check.h"

enum { STATUS, PERIOD, RUNNING };

static void with_head(uint32_t status, uint32_t period, uint32_t running)
{
    m.timer.head[STATUS] = status;
    m.timer.head[PERIOD] = period;
    m.timer.head[RUNNING] = running;
}

static void numbers(int64_t status, int64_t period, int32_t running)
{
    keep();
    EQUAL(wq_k_timer_status_peek(&m.timer), status);
    EQUAL(wq_k_timer_period_get(&m.timer), period);
    EQUAL(wq_k_timer_is_running(&m.timer), running);
    CHECK(stays());
}

/* The answer, and the three words after it; nothing else changes. */
#define LEAVES(call, answer, status, period, running)  \
    do {                                               \
        keep();                                        \
        EQUAL(call, answer);                           \
        word_becomes(&m.timer.head[STATUS], status);   \
        word_becomes(&m.timer.head[PERIOD], period);   \
        word_becomes(&m.timer.head[RUNNING], running); \
        CHECK(stays());                                \
    } while (0)

/* Every ten minutes. */
static void rounds_of_a_feeding_robot(void)
{
    EQUAL(wq_k_timer_init(&m.timer, 10), WQ_OK);
    numbers(0, 10, 0);
    EQUAL(wq_k_timer_start(&m.timer), WQ_OK);
    EQUAL(wq_k_timer_expire(&m.timer), 1);
    EQUAL(wq_k_timer_expire(&m.timer), 2);
    numbers(2, 10, 1);
    EQUAL(wq_k_timer_status_get(&m.timer), 2);
    EQUAL(wq_k_timer_status_get(&m.timer), 0);
    EQUAL(wq_k_timer_expire(&m.timer), 1);
    EQUAL(wq_k_timer_stop(&m.timer), WQ_OK);
    numbers(0, 10, 0);
}

/* Each function on each three words, of which any is well formed. */
static void every_call_at_the_edges(void)
{
    for (size_t i = 0; i < EDGES; i++)
        for (size_t j = 0; j < EDGES; j++)
            for (size_t k = 0; k < EDGES; k++) {
                const uint32_t status = edges[i], period = edges[j], running = edges[k];
                with_head(status, period, running);
                numbers(status, period, running != 0);
                if (status == UINT32_MAX)
                    REFUSED(wq_k_timer_expire(&m.timer), WQ_EOVERFLOW);
                else
                    LEAVES(wq_k_timer_expire(&m.timer), (int64_t)status + 1, status + 1, period, running);
                with_head(status, period, running);
                LEAVES(wq_k_timer_status_get(&m.timer), status, 0, period, running);
                with_head(status, period, running);
                LEAVES(wq_k_timer_start(&m.timer), WQ_OK, 0, period, 1);
                with_head(status, period, running);
                LEAVES(wq_k_timer_stop(&m.timer), WQ_OK, 0, period, 0);
                for (size_t l = 0; l < EDGES; l++) {
                    with_head(status, period, running);
                    LEAVES(wq_k_timer_init(&m.timer, edges[l]), WQ_OK, 0, edges[l], 0);
                }
            }
}

static void the_count_ends_at_its_largest_number(void)
{
    EQUAL(wq_k_timer_init(&m.timer, 1), WQ_OK);
    EQUAL(wq_k_timer_start(&m.timer), WQ_OK);
    m.timer.head[STATUS] = UINT32_MAX - 2;
    EQUAL(wq_k_timer_expire(&m.timer), UINT32_MAX - 1);
    EQUAL(wq_k_timer_expire(&m.timer), UINT32_MAX);
    REFUSED(wq_k_timer_expire(&m.timer), WQ_EOVERFLOW);
    REFUSED(wq_k_timer_expire(&m.timer), WQ_EOVERFLOW);
    numbers(UINT32_MAX, 1, 1);
    EQUAL(wq_k_timer_status_get(&m.timer), UINT32_MAX);
    EQUAL(wq_k_timer_expire(&m.timer), 1);
}

static void a_long_run(void)
{
    uint32_t period = 7;
    int64_t status = 0;
    bool running = false;
    EQUAL(wq_k_timer_init(&m.timer, period), WQ_OK);
    for (int i = 0; i < 10000; i++) {
        numbers(status, period, running);
        switch (random_below(16)) {
        case 0:
            period = edges[random_below(EDGES)];
            LEAVES(wq_k_timer_init(&m.timer, period), WQ_OK, 0, period, 0);
            running = false;
            status = 0;
            break;
        case 1:
            LEAVES(wq_k_timer_start(&m.timer), WQ_OK, 0, period, 1);
            running = true;
            status = 0;
            break;
        case 2:
            LEAVES(wq_k_timer_stop(&m.timer), WQ_OK, 0, period, 0);
            running = false;
            status = 0;
            break;
        case 3:
            LEAVES(wq_k_timer_status_get(&m.timer), status, 0, period, running);
            status = 0;
            break;
        case 4: /* as if it had expired that often */
            status = UINT32_MAX - (int64_t)random_below(4);
            m.timer.head[STATUS] = (uint32_t)status;
            break;
        default:
            if (status == UINT32_MAX) {
                REFUSED(wq_k_timer_expire(&m.timer), WQ_EOVERFLOW);
            } else {
                status++;
                LEAVES(wq_k_timer_expire(&m.timer), status, (uint32_t)status, period, running);
            }
        }
    }
}

static void expire_decides(uint32_t status, uint32_t period, int32_t code, uint32_t new_status)
{
    DECIDES_ONE(wq_timer_expire_decide(status, period, &m.first), code, new_status);
}

static void expire_decisions(void)
{
    for (size_t i = 0; i < EDGES; i++)
        for (size_t j = 0; j < EDGES; j++)
            if (edges[i] == UINT32_MAX)
                expire_decides(edges[i], edges[j], WQ_EOVERFLOW, 0);
            else
                expire_decides(edges[i], edges[j], edges[j] > 0, edges[i] + 1);
}

static void decide_functions_agree(void)
{
    for (size_t i = 0; i < EDGES; i++)
        for (size_t j = 0; j < EDGES; j++) {
            with_head(edges[i], edges[j], 1);
            const int32_t decided = wq_timer_expire_decide(edges[i], edges[j], &m.first);
            const int64_t status = wq_k_timer_expire(&m.timer);
            EQUAL(status, decided < 0 ? decided : (int64_t)m.first);
        }
}

static const struct test tests[] = {
    TEST(rounds_of_a_feeding_robot),
    TEST(every_call_at_the_edges),
    TEST(the_count_ends_at_its_largest_number),
    TEST(a_long_run),
    TEST(expire_decisions),
    TEST(decide_functions_agree),
};

const struct group timer_group = GROUP("timer", tests);
