/* Replays the objects over lent elements. Gale has no elements: it answers slots and numbers. Here each element that is
 * brought is another, and `kept` has what must be in each slot, so that what comes out is checked by Gale's slots. */
#include "replay.h"

#include <string.h>

enum { ROOM = 64, GUARDS = 8 };

static struct wq_ring_buf ring;
static struct wq_msgq msgq;
static struct wq_pipe pipe;
static struct wq_stack stack;
static struct wq_mem_slab slab;

static uint8_t bytes[ROOM + GUARDS], kept_bytes[ROOM + GUARDS];
static uint64_t words[ROOM + GUARDS], kept_words[ROOM + GUARDS];
static uint32_t links[ROOM + GUARDS], kept_links[ROOM + GUARDS];
static bool is_out[ROOM];
static uint64_t brought;

static uint64_t bring(void) { return ++brought * UINT64_C(0x9E3779B97F4A7C15); }

static const uint8_t *bring_bytes(uint64_t n)
{
    static uint8_t fresh[ROOM];
    for (uint64_t i = 0; i < n && i < ROOM; i++)
        fresh[i] = (uint8_t)bring();
    return fresh;
}

static void check_bytes(struct result *r)
{
    if (memcmp(bytes, kept_bytes, sizeof bytes) != 0)
        r->broken = "other bytes changed than those of the slot";
}

/* So many bytes from a place on, in a ring of this size. */
static void keep(uint64_t size, uint64_t place, const uint8_t *from, int64_t n)
{
    for (int64_t i = 0; i < n; i++)
        kept_bytes[(place + (uint64_t)i) % size] = from[i];
}

static void check_out(struct result *r, uint64_t size, uint64_t place, const uint8_t *out, int64_t n)
{
    for (int64_t i = 0; i < n; i++)
        if (out[i] != kept_bytes[(place + (uint64_t)i) % size])
            r->broken = "other bytes came out than went in";
}

/* ---- Ring buffer -------------------------------------------------------------------------- */

static void ring_hold(struct result *r)
{
    put(&r->after, wq_k_ring_buf_capacity_get(&ring));
    put(&r->after, wq_k_ring_buf_head_get(&ring));
    put(&r->after, wq_k_ring_buf_tail_get(&ring));
    put(&r->after, wq_k_ring_buf_size_get(&ring));
    put(&r->after, wq_k_ring_buf_space_get(&ring));
    put(&r->after, wq_k_ring_buf_is_empty(&ring));
    put(&r->after, wq_k_ring_buf_is_full(&ring));
    check_bytes(r);
}

static void ring_buf_init(const long long *in, struct result *r)
{
    answer(r, wq_k_ring_buf_init(&ring, bytes, ROOM, (uint32_t)in[0]));
    ring_hold(r);
}

static void ring_buf_put(const long long *in, struct result *r)
{
    int64_t slot = wq_k_ring_buf_tail_get(&ring);
    const uint8_t *value = bring_bytes(1);
    int32_t code = wq_k_ring_buf_put(&ring, *value);
    (void)in;
    if (code == WQ_OK)
        keep(ring.head[0], (uint64_t)slot, value, 1);
    answer(r, code == WQ_OK ? slot : code);
    ring_hold(r);
}

static void ring_buf_get(const long long *in, struct result *r)
{
    int64_t slot = wq_k_ring_buf_head_get(&ring);
    uint8_t value;
    int32_t code = wq_k_ring_buf_get(&ring, &value);
    (void)in;
    check_out(r, ring.head[0], (uint64_t)slot, &value, code == WQ_OK);
    answer(r, code == WQ_OK ? slot : code);
    ring_hold(r);
}

static void ring_buf_put_n(const long long *in, struct result *r)
{
    int64_t slot = wq_k_ring_buf_tail_get(&ring);
    const uint8_t *values = bring_bytes((uint64_t)in[0]);
    int64_t n = wq_k_ring_buf_put_n(&ring, values, (uint64_t)in[0]);
    keep(ring.head[0], (uint64_t)slot, values, n);
    answer(r, n);
    ring_hold(r);
}

static void ring_buf_get_n(const long long *in, struct result *r)
{
    int64_t slot = wq_k_ring_buf_head_get(&ring);
    uint8_t out[ROOM];
    int64_t n = wq_k_ring_buf_get_n(&ring, out, (uint64_t)in[0]);
    check_out(r, ring.head[0], (uint64_t)slot, out, n);
    answer(r, n);
    ring_hold(r);
}

static void ring_buf_peek_at(const long long *in, struct result *r)
{
    int64_t slot = (wq_k_ring_buf_head_get(&ring) + in[0]) % ring.head[0];
    uint8_t value;
    int32_t code = wq_k_ring_buf_peek_at(&ring, (uint32_t)in[0], &value);
    check_out(r, ring.head[0], (uint64_t)slot, &value, code == WQ_OK);
    answer(r, code == WQ_OK ? slot : code);
    ring_hold(r);
}

static void ring_buf_reset(const long long *in, struct result *r)
{
    (void)in;
    answer(r, wq_k_ring_buf_reset(&ring));
    ring_hold(r);
}

static void ring_buf_claim_decide(const long long *in, struct result *r)
{
    uint32_t offset = UINT32_MAX;
    answer(r, wq_ring_buf_claim_decide((uint32_t)in[0], (uint32_t)in[1], (uint32_t)in[2], (uint32_t)in[3], &offset));
    put(&r->after, offset);
}

static void ring_buf_finish_decide(const long long *in, struct result *r)
{
    answer(r, wq_ring_buf_finish_decide((uint32_t)in[0], (uint32_t)in[1], (uint32_t)in[2]));
}

static void ring_buf_space_get_decide(const long long *in, struct result *r)
{
    answer(r, wq_ring_buf_space_get_decide((uint32_t)in[0], (uint32_t)in[1], (uint32_t)in[2]));
}

static void ring_buf_size_get_decide(const long long *in, struct result *r)
{
    answer(r, wq_ring_buf_size_get_decide((uint32_t)in[0], (uint32_t)in[1]));
}

/* ---- Message queue ------------------------------------------------------------------------ */

static void msgq_hold(struct result *r)
{
    put(&r->after, wq_k_msgq_max_msgs_get(&msgq));
    put(&r->after, wq_k_msgq_msg_size_get(&msgq));
    put(&r->after, wq_k_msgq_read_idx_get(&msgq));
    put(&r->after, wq_k_msgq_write_idx_get(&msgq));
    put(&r->after, wq_k_msgq_num_used_get(&msgq));
    put(&r->after, wq_k_msgq_num_free_get(&msgq));
    put(&r->after, wq_k_msgq_is_empty(&msgq));
    put(&r->after, wq_k_msgq_is_full(&msgq));
    check_bytes(r);
}

static void msgq_init(const long long *in, struct result *r)
{
    answer(r, wq_k_msgq_init(&msgq, bytes, ROOM, (uint32_t)in[0], (uint32_t)in[1]));
    msgq_hold(r);
}

/* A put answered this code, and its slot is known now. */
static void msgq_put_did(struct result *r, const uint8_t *msg, int32_t code, int64_t slot)
{
    if (code == WQ_OK)
        keep(ROOM, (uint64_t)slot * msgq.head[3], msg, msgq.head[3]);
    answer(r, code == WQ_OK ? slot : code);
    msgq_hold(r);
}

static void msgq_put(const long long *in, struct result *r)
{
    int64_t slot = wq_k_msgq_write_idx_get(&msgq);
    const uint8_t *msg = bring_bytes(msgq.head[3]);
    (void)in;
    msgq_put_did(r, msg, wq_k_msgq_put(&msgq, msg, msgq.head[3]), slot);
}

static void msgq_put_front(const long long *in, struct result *r)
{
    const uint8_t *msg = bring_bytes(msgq.head[3]);
    int32_t code = wq_k_msgq_put_front(&msgq, msg, msgq.head[3]);
    (void)in;
    msgq_put_did(r, msg, code, wq_k_msgq_read_idx_get(&msgq));
}

static void msgq_out_did(struct result *r, const uint8_t *out, int32_t code, int64_t slot)
{
    check_out(r, ROOM, (uint64_t)slot * msgq.head[3], out, code == WQ_OK ? msgq.head[3] : 0);
    answer(r, code == WQ_OK ? slot : code);
    msgq_hold(r);
}

static void msgq_get(const long long *in, struct result *r)
{
    int64_t slot = wq_k_msgq_read_idx_get(&msgq);
    uint8_t out[ROOM];
    (void)in;
    msgq_out_did(r, out, wq_k_msgq_get(&msgq, out, msgq.head[3]), slot);
}

static void msgq_peek_at(const long long *in, struct result *r)
{
    int64_t slot = (wq_k_msgq_read_idx_get(&msgq) + in[0]) % msgq.head[0];
    uint8_t out[ROOM];
    msgq_out_did(r, out, wq_k_msgq_peek_at(&msgq, (uint32_t)in[0], out, msgq.head[3]), slot);
}

static void msgq_purge(const long long *in, struct result *r)
{
    (void)in;
    answer(r, wq_k_msgq_purge(&msgq));
    msgq_hold(r);
}

static void msgq_put_decide(const long long *in, struct result *r)
{
    uint32_t new[2];
    int32_t code = wq_msgq_put_decide((uint32_t)in[0], (uint32_t)in[1], (uint32_t)in[2], in[3] != 0, in[4] != 0,
                                      &new[0], &new[1]);
    decided(r, code, new, 2);
}

static void msgq_get_decide(const long long *in, struct result *r)
{
    uint32_t new[2];
    int32_t code = wq_msgq_get_decide((uint32_t)in[0], (uint32_t)in[1], (uint32_t)in[2], in[3] != 0, in[4] != 0,
                                      &new[0], &new[1]);
    decided(r, code, new, 2);
}

static void msgq_put_front_decide(const long long *in, struct result *r)
{
    uint32_t new[2];
    int32_t code = wq_msgq_put_front_decide((uint32_t)in[0], (uint32_t)in[1], (uint32_t)in[2], &new[0], &new[1]);
    decided(r, code, new, 2);
}

static void msgq_peek_at_decide(const long long *in, struct result *r)
{
    uint32_t slot;
    int32_t code = wq_msgq_peek_at_decide((uint32_t)in[0], (uint32_t)in[1], (uint32_t)in[2], (uint32_t)in[3], &slot);
    decided(r, code, &slot, 1);
}

/* ---- Pipe --------------------------------------------------------------------------------- */

static void pipe_hold(struct result *r)
{
    put(&r->after, wq_k_pipe_size(&pipe));
    put(&r->after, wq_k_pipe_data_get(&pipe));
    put(&r->after, wq_k_pipe_space_get(&pipe));
    put(&r->after, wq_k_pipe_is_empty(&pipe));
    put(&r->after, wq_k_pipe_is_full(&pipe));
    put(&r->after, wq_k_pipe_is_open(&pipe));
    put(&r->after, wq_k_pipe_is_resetting(&pipe));
    check_bytes(r);
}

static void pipe_init(const long long *in, struct result *r)
{
    answer(r, wq_k_pipe_init(&pipe, bytes, ROOM, (uint32_t)in[0]));
    pipe_hold(r);
}

/* Gale's pipe has no places; its bytes stand as those of a ring buffer. */
static void pipe_writes(int64_t (*write)(struct wq_pipe *, const uint8_t *, uint64_t), uint64_t len, struct result *r)
{
    uint64_t place = (uint64_t)pipe.head[1] + pipe.head[2];
    const uint8_t *values = bring_bytes(len);
    int64_t n = write(&pipe, values, len);
    keep(pipe.head[0], place, values, n);
    answer(r, n);
    pipe_hold(r);
}

static void pipe_reads(int64_t (*read)(struct wq_pipe *, uint8_t *, uint64_t), uint64_t len, struct result *r)
{
    uint64_t place = pipe.head[1];
    uint8_t out[ROOM];
    int64_t n = read(&pipe, out, len);
    check_out(r, pipe.head[0], place, out, n);
    answer(r, n);
    pipe_hold(r);
}

static void pipe_write(const long long *in, struct result *r) { pipe_writes(wq_k_pipe_write, (uint64_t)in[0], r); }

static void pipe_write_all(const long long *in, struct result *r) { pipe_writes(wq_k_pipe_write_all, (uint64_t)in[0], r); }

static void pipe_read(const long long *in, struct result *r) { pipe_reads(wq_k_pipe_read, (uint64_t)in[0], r); }

static void pipe_read_all(const long long *in, struct result *r) { pipe_reads(wq_k_pipe_read_all, (uint64_t)in[0], r); }

static void pipe_reset(const long long *in, struct result *r)
{
    (void)in;
    answer(r, wq_k_pipe_reset(&pipe));
    pipe_hold(r);
}

static void pipe_close(const long long *in, struct result *r)
{
    (void)in;
    answer(r, wq_k_pipe_close(&pipe));
    pipe_hold(r);
}

static void pipe_clear_reset(const long long *in, struct result *r)
{
    (void)in;
    answer(r, wq_k_pipe_clear_reset(&pipe));
    pipe_hold(r);
}

static void pipe_write_decide(const long long *in, struct result *r)
{
    uint32_t new[2];
    int32_t code = wq_pipe_write_decide((uint32_t)in[0], (uint32_t)in[1], (uint32_t)in[2], (uint32_t)in[3], in[4] != 0,
                                        &new[0], &new[1]);
    decided(r, code, new, 2);
}

static void pipe_read_decide(const long long *in, struct result *r)
{
    uint32_t new[2];
    int32_t code = wq_pipe_read_decide((uint32_t)in[0], (uint32_t)in[1], (uint32_t)in[2], (uint32_t)in[3], in[4] != 0,
                                       &new[0], &new[1]);
    decided(r, code, new, 2);
}

/* ---- Stack -------------------------------------------------------------------------------- */

static void stack_hold(struct result *r)
{
    put(&r->after, wq_k_stack_capacity(&stack));
    put(&r->after, wq_k_stack_num_used(&stack));
    put(&r->after, wq_k_stack_num_free(&stack));
    put(&r->after, wq_k_stack_is_empty(&stack));
    put(&r->after, wq_k_stack_is_full(&stack));
    if (memcmp(words, kept_words, sizeof words) != 0)
        r->broken = "other words changed than the pushed one";
}

static void stack_init(const long long *in, struct result *r)
{
    answer(r, wq_k_stack_init(&stack, words, ROOM, (uint32_t)in[0]));
    stack_hold(r);
}

static void stack_push(const long long *in, struct result *r)
{
    uint64_t data = bring();
    int64_t place = wq_k_stack_num_used(&stack);
    int32_t code = wq_k_stack_push(&stack, data);
    (void)in;
    if (code == WQ_OK)
        kept_words[place] = data;
    answer(r, code);
    stack_hold(r);
}

static void stack_pop(const long long *in, struct result *r)
{
    uint64_t data;
    int32_t code = wq_k_stack_pop(&stack, &data);
    (void)in;
    if (code == WQ_OK && data != kept_words[wq_k_stack_num_used(&stack)])
        r->broken = "another word came out than was pushed last";
    answer(r, code);
    stack_hold(r);
}

static void stack_push_decide(const long long *in, struct result *r)
{
    uint32_t new;
    int32_t code = wq_stack_push_decide((uint32_t)in[0], (uint32_t)in[1], in[2] != 0, &new);
    decided(r, code, &new, 1);
}

static void stack_pop_decide(const long long *in, struct result *r)
{
    uint32_t new;
    int32_t code = wq_stack_pop_decide((uint32_t)in[0], in[1] != 0, &new);
    decided(r, code, &new, 1);
}

/* ---- Memory slab -------------------------------------------------------------------------- */

static void slab_hold(struct result *r)
{
    uint32_t n = slab.head[0];
    put(&r->after, wq_k_mem_slab_num_blocks_get(&slab));
    put(&r->after, wq_k_mem_slab_block_size_get(&slab));
    put(&r->after, wq_k_mem_slab_num_used_get(&slab));
    put(&r->after, wq_k_mem_slab_num_free_get(&slab));
    put(&r->after, wq_k_mem_slab_is_empty(&slab));
    put(&r->after, wq_k_mem_slab_is_full(&slab));
    for (uint32_t i = 0; i < n && i < ROOM; i++)
        if ((links[i] == 0) != is_out[i])
            r->broken = "a link is 0 and its block is not out, or the other way round";
    if (n < ROOM && memcmp(links + n, kept_links + n, sizeof links - n * sizeof links[0]) != 0)
        r->broken = "a link behind the last changed";
    memcpy(kept_links, links, sizeof links);
}

static void mem_slab_init(const long long *in, struct result *r)
{
    int32_t code = wq_k_mem_slab_init(&slab, links, ROOM, (uint32_t)in[0], (uint32_t)in[1]);
    if (code == WQ_OK)
        memset(is_out, 0, sizeof is_out);
    answer(r, code);
    slab_hold(r);
}

static void mem_slab_alloc(const long long *in, struct result *r)
{
    int64_t block = wq_k_mem_slab_alloc(&slab);
    (void)in;
    if (block >= slab.head[0] || (block >= 0 && is_out[block]))
        r->broken = "a block that is out, or none of the slab";
    else if (block >= 0)
        is_out[block] = true;
    answer(r, block < 0 ? block : WQ_OK);
    slab_hold(r);
}

static void mem_slab_free(const long long *in, struct result *r)
{
    uint32_t block = 0;
    for (long long place = in[0]; block < slab.head[0] && (!is_out[block] || place-- > 0);)
        block++;
    int32_t code = wq_k_mem_slab_free(&slab, block);
    if (code == WQ_OK)
        is_out[block] = false;
    answer(r, code);
    slab_hold(r);
}

static void mem_slab_alloc_decide(const long long *in, struct result *r)
{
    uint32_t new;
    int32_t code = wq_mem_slab_alloc_decide((uint32_t)in[0], (uint32_t)in[1], in[2] != 0, &new);
    decided(r, code, &new, 1);
}

static void mem_slab_free_decide(const long long *in, struct result *r)
{
    uint32_t new;
    int32_t code = wq_mem_slab_free_decide((uint32_t)in[0], in[1] != 0, &new);
    decided(r, code, &new, 1);
}

const struct operation lent_operations[] = {
    {"ring_buf.init", 1, ring_buf_init},
    {"ring_buf.put", 0, ring_buf_put},
    {"ring_buf.get", 0, ring_buf_get},
    {"ring_buf.put_n", 1, ring_buf_put_n},
    {"ring_buf.get_n", 1, ring_buf_get_n},
    {"ring_buf.peek_at", 1, ring_buf_peek_at},
    {"ring_buf.reset", 0, ring_buf_reset},
    {"ring_buf.claim_decide", 4, ring_buf_claim_decide},
    {"ring_buf.finish_decide", 3, ring_buf_finish_decide},
    {"ring_buf.space_get_decide", 3, ring_buf_space_get_decide},
    {"ring_buf.size_get_decide", 2, ring_buf_size_get_decide},
    {"msgq.init", 2, msgq_init},
    {"msgq.put", 0, msgq_put},
    {"msgq.put_front", 0, msgq_put_front},
    {"msgq.get", 0, msgq_get},
    {"msgq.peek_at", 1, msgq_peek_at},
    {"msgq.purge", 0, msgq_purge},
    {"msgq.put_decide", 5, msgq_put_decide},
    {"msgq.get_decide", 5, msgq_get_decide},
    {"msgq.put_front_decide", 3, msgq_put_front_decide},
    {"msgq.peek_at_decide", 4, msgq_peek_at_decide},
    {"pipe.init", 1, pipe_init},
    {"pipe.write", 1, pipe_write},
    {"pipe.write_all", 1, pipe_write_all},
    {"pipe.read", 1, pipe_read},
    {"pipe.read_all", 1, pipe_read_all},
    {"pipe.reset", 0, pipe_reset},
    {"pipe.close", 0, pipe_close},
    {"pipe.clear_reset", 0, pipe_clear_reset},
    {"pipe.write_decide", 5, pipe_write_decide},
    {"pipe.read_decide", 5, pipe_read_decide},
    {"stack.init", 1, stack_init},
    {"stack.push", 0, stack_push},
    {"stack.pop", 0, stack_pop},
    {"stack.push_decide", 3, stack_push_decide},
    {"stack.pop_decide", 2, stack_pop_decide},
    {"mem_slab.init", 2, mem_slab_init},
    {"mem_slab.alloc", 0, mem_slab_alloc},
    {"mem_slab.free", 1, mem_slab_free},
    {"mem_slab.alloc_decide", 3, mem_slab_alloc_decide},
    {"mem_slab.free_decide", 2, mem_slab_free_decide},
    {0},
};
