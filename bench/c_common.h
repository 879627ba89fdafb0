/* What c_array.c and c_list.c share.
 *
 * SPDX-License-Identifier: Apache-2.0
 */
#ifndef C_COMMON_H
#define C_COMMON_H

/* For what several objects use: a compiler would call it in some of them, and the call costs. */
#define ALWAYS_INLINE inline __attribute__((always_inline))

/* The refusals that come before an operation's own, in the order of waitqueue.h; with CHECKED 0 there are none. This is
 * a macro because clang makes a chain of conditional moves of a function that answers the code, and a right call goes
 * through all of it. */
#define REFUSE_CALLER(malformed, priority, state)             \
    do {                                                      \
        if (CHECKED) {                                        \
            if ((malformed) || (priority) >= WQ_MAX_PRIORITY) \
                return WQ_EINVAL;                             \
            if ((state) == WQ_BLOCKED)                        \
                return WQ_EBUSY;                              \
            if ((state) != WQ_RUNNING)                        \
                return WQ_EINVAL;                             \
        }                                                     \
    } while (0)

#endif
