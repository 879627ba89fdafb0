/* What every object has to refuse.
 *
 * SPDX-License-Identifier: Apache-2.0
 */
#include "check.h"

const uint32_t too_long[TOO_LONG] = {WQ_MAX_WAITERS + 1, 1u << 31, UINT32_MAX};

const struct bad_caller bad_callers[BAD_CALLERS] = {
    {32, WQ_RUNNING, WQ_EINVAL}, {UINT32_MAX, WQ_RUNNING, WQ_EINVAL}, {32, WQ_BLOCKED, WQ_EINVAL},
    {31, WQ_BLOCKED, WQ_EBUSY},  {5, WQ_READY, WQ_EINVAL},            {5, WQ_SUSPENDED, WQ_EINVAL},
    {5, 4, WQ_EINVAL},           {5, UINT32_MAX, WQ_EINVAL},
};

/* Unsorted, then a thread twice, then a priority above 31. */
const struct bad_entry bad_entries[BAD_ENTRIES] = {
    {0, 4, 9}, {1, 6, 7}, {1, 1, 7}, {2, 6, 3},  {0, 5, 7},
    {2, 2, 7}, {2, 2, 9}, {0, 32, 9}, {2, UINT32_MAX, UINT32_MAX},
};

/* An owner without a lock, a lock without an owner, somebody who waits at a free mutex, too many. */
const uint32_t malformed_mutexes[MALFORMED_MUTEXES][4] = {
    {1, 4, 0, 0},          {UINT32_MAX, 4, 0, 0}, {1, 4, 0, 3},
    {0, 4, 1, 0},          {0, 4, UINT32_MAX, 0}, {0, 4, 1, 3},
    {0, 4, 0, 1},          {0, 4, 0, 64},         {0, 4, 0, 65},
    {1, 4, 1, 65},         {1, 4, 2, 65},         {1, 4, UINT32_MAX, 65},
    {1, 4, 1, 1u << 31},   {1, 4, 1, UINT32_MAX}, {0, 4, 0, UINT32_MAX},
    {1, 4, 0, UINT32_MAX}, {UINT32_MAX, UINT32_MAX, UINT32_MAX, UINT32_MAX},
};

/* Each clause alone, at its edge and far beyond it; then several. */
const struct malformed_ring malformed_rings[MALFORMED_RINGS] = {
    {{0, 0, 0}, 8},
    {{8, 8, 0}, 8},
    {{8, 9, 1}, ROOM},
    {{8, UINT32_MAX, 8}, ROOM},
    {{8, 0, 9}, ROOM},
    {{8, 7, 9}, ROOM},
    {{8, 0, UINT32_MAX}, ROOM},
    {{8, 7, UINT32_MAX - 6}, ROOM}, /* start and count are 0 together, in 32 bits */
    {{8, 0, 0}, 7},
    {{8, 0, 8}, 0},
    {{UINT32_MAX, 0, 3}, UINT32_MAX - 1ull},
    {{0, 0, 1}, ROOM},
    {{0, 1, 0}, 0},
    {{8, 8, 8}, 7},
    {{UINT32_MAX, UINT32_MAX, UINT32_MAX}, ROOM},
};

const struct sized bad_sizes[BAD_SIZES] = {
    {0, 0}, {0, ROOM}, {1, 0}, {8, 7}, {ROOM, ROOM - 1}, {1u << 31, ROOM}, {UINT32_MAX, UINT32_MAX - 1ull},
};
