// A caller in C++.
//
// SPDX-License-Identifier: Apache-2.0
#include "waitqueue.h"

extern "C" bool caller_in_cpp()
{
    wq_sem s;
    wq_thread t;
    wq_woken who = 0;
    return wq_k_sem_init(&s, 0, 1) == WQ_OK && wq_thread_init(&t, 7, 5) == WQ_OK && wq_dispatch(&t) == WQ_OK &&
           wq_k_sem_take(&s, &t) == WQ_WAITS && wq_k_sem_give(&s, &who) == WQ_GIVE_WOKE && wq_woken_id(who) == 7;
}
