/* What the parts of the replay share. */
#ifndef REPLAY_H
#define REPLAY_H

#include "waitqueue.h"

enum { MAX_NUMBERS = 160 };

struct numbers {
    int n;
    long long v[MAX_NUMBERS];
};

/* What an operation answered, what the object holds then, and what else went wrong. */
struct result {
    struct numbers answer, after;
    const char *broken;
};

/* A table of these ends with one that has no name. */
struct operation {
    const char *name;
    int inputs;
    void (*replay)(const long long *in, struct result *r);
};

extern const struct operation lent_operations[], plain_operations[];

static inline void put(struct numbers *to, long long v)
{
    if (to->n < MAX_NUMBERS)
        to->v[to->n++] = v;
}

static inline void answer(struct result *r, long long v) { put(&r->answer, v); }

/* A decide function that writes so many numbers, and none where it refuses. */
static inline void decided(struct result *r, int32_t code, const uint32_t *numbers, int n)
{
    answer(r, code);
    for (int i = 0; i < n && code >= 0; i++)
        put(&r->after, numbers[i]);
}

#endif
