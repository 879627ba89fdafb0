/* What tests share: numbers, bytes, a plain model of what is held, and rings of bytes.
 *
 * SPDX-License-Identifier: Apache-2.0
 */
#include <stdio.h>
#include <stdlib.h>
#include <string.h>

#include "check.h"

const uint32_t edges[EDGES] = {0, 1, 2, (1u << 31) - 1, 1u << 31, (1u << 31) + 1, UINT32_MAX - 1, UINT32_MAX};

uint8_t *huge(void)
{
    static uint8_t *place;
    if (place == NULL)
        place = malloc(HUGE_LEN);
    if (place == NULL) {
        fputs("the tests need 4 GiB of address space\n", stderr);
        abort();
    }
    return place;
}

int64_t lesser(uint64_t len, uint32_t most) { return (int64_t)(len < most ? len : most); }

uint32_t random_below(uint32_t below)
{
    static uint32_t random = 12345;
    random = random * 1664525u + 1013904223u;
    return (random >> 8) % below;
}

uint64_t random_word(void)
{
    uint64_t word;
    fill_randomly((uint8_t *)&word, sizeof word);
    return word;
}

void fill_randomly(uint8_t *bytes, size_t count)
{
    for (size_t i = 0; i < count; i++)
        bytes[i] = (uint8_t)random_below(256);
}

void held_behind(struct held *h, const uint8_t *bytes, size_t count)
{
    memcpy(h->byte + h->count, bytes, count);
    h->count += count;
}

void held_before(struct held *h, const uint8_t *bytes, size_t count)
{
    memmove(h->byte + count, h->byte, h->count);
    memcpy(h->byte, bytes, count);
    h->count += count;
}

void held_leaves(struct held *h, size_t count)
{
    h->count -= count;
    memmove(h->byte, h->byte + count, h->count);
}

/* ---- Rings of bytes --------------------------------------------------------------------------- */

enum { SIZE, START, COUNT };

static void with_ring(const struct ring *r, uint32_t size, uint32_t start, uint32_t count)
{
    r->head[SIZE] = size;
    r->head[START] = start;
    r->head[COUNT] = count;
}

void ring_put(const struct ring *r, uint64_t len)
{
    const uint32_t size = r->head[SIZE], start = r->head[START], count = r->head[COUNT];
    const int64_t answer = r->put_answer(len, size - count);
    keep();
    EQUAL(r->put(m.src, len), answer);
    for (int64_t i = 0; i < answer; i++)
        becomes(&m.buf[(start + count + i) % size], &m.src[i], 1);
    if (answer > 0)
        word_becomes(&r->head[COUNT], count + (uint32_t)answer);
    CHECK(stays());
}

void ring_get(const struct ring *r, uint64_t len)
{
    const uint32_t size = r->head[SIZE], start = r->head[START], count = r->head[COUNT];
    const int64_t answer = r->get_answer(len, count);
    keep();
    EQUAL(r->get(m.got, len), answer);
    for (int64_t i = 0; i < answer; i++)
        becomes(&m.got[i], &m.buf[(start + i) % size], 1);
    if (answer > 0) {
        word_becomes(&r->head[START], (uint32_t)((start + answer) % size));
        word_becomes(&r->head[COUNT], count - (uint32_t)answer);
    }
    CHECK(stays());
}

/* Every place of the first byte, every number of bytes, every length up to two more than could be. */
void every_small_ring(const struct ring *r)
{
    for (uint32_t size = 1; size <= 6; size++)
        UP_TO(start, size - 1) UP_TO(count, size) UP_TO(len, size + 2)
        {
            fill_randomly(m.buf, size + 2);
            fill_randomly(m.src, size + 2);
            with_ring(r, size, start, count);
            ring_put(r, len);
            with_ring(r, size, start, count);
            ring_get(r, len);
        }
}

/* The ring is empty. What comes out is what went in, in that order. */
void long_run_of_ring(const struct ring *r, uint32_t size)
{
    struct held held = {.count = 0};
    for (int i = 0; i < 3000; i++) {
        const uint32_t len = random_below(size + 2 < ROOM ? size + 2 : ROOM + 1);
        if (random_below(2) == 0) {
            fill_randomly(m.src, ROOM);
            const int64_t answer = r->put_answer(len, size - (uint32_t)held.count);
            ring_put(r, len);
            if (answer > 0)
                held_behind(&held, m.src, (size_t)answer);
        } else {
            const int64_t answer = r->get_answer(len, (uint32_t)held.count);
            ring_get(r, len);
            if (answer > 0) {
                CHECK(memcmp(m.got, held.byte, (size_t)answer) == 0);
                held_leaves(&held, (size_t)answer);
            }
        }
        EQUAL(r->head[COUNT], (int64_t)held.count);
    }
}

/* Only as many as fit are reached. */
void longer_than_32_bits(const struct ring *r)
{
    static const uint64_t lens[] = {UINT32_MAX, 1ull << 32, (1ull << 32) + 1, (1ull << 32) + 3, HUGE_LEN};
    for (size_t i = 0; i < COUNT_OF(lens); i++) {
        with_ring(r, 7, 5, 2);
        fill_randomly(huge(), 8);
        keep();
        EQUAL(r->put(huge(), lens[i]), 5);
        for (int k = 0; k < 5; k++)
            becomes(&m.buf[k], &huge()[k], 1);
        word_becomes(&r->head[COUNT], 7);
        CHECK(stays());

        const uint8_t behind = huge()[7];
        keep();
        EQUAL(r->get(huge(), lens[i]), 7);
        for (int k = 0; k < 7; k++)
            EQUAL(huge()[k], m.buf[(5 + k) % 7]);
        EQUAL(huge()[7], behind);
        word_becomes(&r->head[COUNT], 0);
        CHECK(stays());
    }
}
