/* Ring buffer, pipe, message queue, stack and memory slab of waitqueue.h in C, under the header's own names. Bytes are
 * copied by memcpy: at once, or in two pieces over the end. With CHECKED 1 they make the refusals that the header
 * lists, in that order; with CHECKED 0 only those that are no mistake of the caller: full, empty, closed, resetting.
 *
 * SPDX-License-Identifier: Apache-2.0
 */
#include <stddef.h>
#include <string.h>
#include "c_common.h"
#include "waitqueue.h"

/* A place beyond the end, from the front on. */
static inline uint64_t wrapped(uint64_t at, uint64_t size)
{
    return at >= size ? at - size : at;
}

static inline uint64_t lesser(uint64_t a, uint64_t b)
{
    return a < b ? a : b;
}

/* ---- Bytes in a ring -------------------------------------------------------------------------- */

enum { SIZE, START, USED };

static inline bool ring_malformed(const uint32_t *head, uint64_t buf_len)
{
    return head[SIZE] == 0 || head[START] >= head[SIZE] || head[USED] > head[SIZE] || buf_len < head[SIZE];
}

static inline int32_t ring_init(uint32_t *head, uint64_t buf_len, uint32_t size)
{
    if (CHECKED && (size == 0 || buf_len < size))
        return WQ_EINVAL;
    head[SIZE] = size;
    head[START] = 0;
    head[USED] = 0;
    return WQ_OK;
}

static ALWAYS_INLINE int64_t bytes_in(uint32_t *head, uint8_t *buf, const uint8_t *src, uint64_t src_len)
{
    uint64_t size = head[SIZE], count = lesser(src_len, size - head[USED]);
    uint64_t at = wrapped((uint64_t)head[START] + head[USED], size), before = size - at;
    if (count <= before) {
        memcpy(buf + at, src, count);
    } else {
        memcpy(buf + at, src, before);
        memcpy(buf, src + before, count - before);
    }
    head[USED] += (uint32_t)count;
    return (int64_t)count;
}

static ALWAYS_INLINE int64_t bytes_out(uint32_t *head, const uint8_t *buf, uint8_t *out, uint64_t out_len)
{
    uint64_t size = head[SIZE], count = lesser(out_len, head[USED]);
    uint64_t at = head[START], before = size - at;
    if (count <= before) {
        memcpy(out, buf + at, count);
    } else {
        memcpy(out, buf + at, before);
        memcpy(out + before, buf, count - before);
    }
    head[START] = (uint32_t)wrapped(at + count, size);
    head[USED] -= (uint32_t)count;
    return (int64_t)count;
}

/* ---- Ring buffer ------------------------------------------------------------------------------ */

int32_t wq_ring_buf_init(uint32_t *head, const uint8_t *buf, uint64_t buf_len, uint32_t capacity)
{
    (void)buf;
    return ring_init(head, buf_len, capacity);
}

int64_t wq_ring_buf_put_n(uint32_t *head, uint8_t *buf, uint64_t buf_len, const uint8_t *src, uint64_t src_len)
{
    if (CHECKED && ring_malformed(head, buf_len))
        return WQ_EINVAL;
    return bytes_in(head, buf, src, src_len);
}

int64_t wq_ring_buf_get_n(uint32_t *head, const uint8_t *buf, uint64_t buf_len, uint8_t *out, uint64_t out_len)
{
    if (CHECKED && ring_malformed(head, buf_len))
        return WQ_EINVAL;
    return bytes_out(head, buf, out, out_len);
}

/* ---- Pipe ------------------------------------------------------------------------------------- */

enum { FLAGS = 3 };

static inline bool pipe_malformed(const uint32_t *head, uint64_t buf_len)
{
    return ring_malformed(head, buf_len) || head[FLAGS] > (WQ_FLAG_OPEN | WQ_FLAG_RESET);
}

int32_t wq_pipe_init(uint32_t *head, const uint8_t *buf, uint64_t buf_len, uint32_t size)
{
    (void)buf;
    int32_t code = ring_init(head, buf_len, size);
    if (code == WQ_OK)
        head[FLAGS] = WQ_FLAG_OPEN;
    return code;
}

int64_t wq_pipe_write(uint32_t *head, uint8_t *buf, uint64_t buf_len, const uint8_t *src, uint64_t src_len)
{
    if (CHECKED && pipe_malformed(head, buf_len))
        return WQ_EINVAL;
    if (head[FLAGS] & WQ_FLAG_RESET)
        return WQ_ECANCELED;
    if (!(head[FLAGS] & WQ_FLAG_OPEN))
        return WQ_EPIPE;
    if (CHECKED && src_len == 0)
        return WQ_ENOMSG;
    if (head[USED] == head[SIZE])
        return WQ_EAGAIN;
    return bytes_in(head, buf, src, src_len);
}

int64_t wq_pipe_read(uint32_t *head, const uint8_t *buf, uint64_t buf_len, uint8_t *out, uint64_t out_len)
{
    if (CHECKED && pipe_malformed(head, buf_len))
        return WQ_EINVAL;
    if (head[FLAGS] & WQ_FLAG_RESET)
        return WQ_ECANCELED;
    if (CHECKED && out_len == 0)
        return WQ_ENOMSG;
    if (head[USED] == 0)
        return head[FLAGS] & WQ_FLAG_OPEN ? WQ_EAGAIN : WQ_EPIPE;
    return bytes_out(head, buf, out, out_len);
}

/* ---- Message queue ---------------------------------------------------------------------------- */

enum { MAX_MSGS, READ_IDX, USED_MSGS, MSG_SIZE };

static inline bool msgq_malformed(const uint32_t *head, uint64_t buf_len)
{
    uint64_t bytes = (uint64_t)head[MAX_MSGS] * head[MSG_SIZE];
    return head[MAX_MSGS] == 0 || head[MSG_SIZE] == 0 || head[READ_IDX] >= head[MAX_MSGS] ||
           head[USED_MSGS] > head[MAX_MSGS] || bytes > UINT32_MAX || buf_len < bytes;
}

int32_t wq_msgq_init(uint32_t *head, const uint8_t *buf, uint64_t buf_len, uint32_t msg_size, uint32_t max_msgs)
{
    const uint32_t new[] = {max_msgs, 0, 0, msg_size};
    (void)buf;
    if (CHECKED && msgq_malformed(new, buf_len))
        return WQ_EINVAL;
    memcpy(head, new, sizeof new);
    return WQ_OK;
}

int32_t wq_msgq_put(uint32_t *head, uint8_t *buf, uint64_t buf_len, const uint8_t *msg, uint64_t msg_len)
{
    if (CHECKED && (msgq_malformed(head, buf_len) || msg_len != head[MSG_SIZE]))
        return WQ_EINVAL;
    if (head[USED_MSGS] == head[MAX_MSGS])
        return WQ_ENOMSG;
    uint64_t slot = wrapped((uint64_t)head[READ_IDX] + head[USED_MSGS], head[MAX_MSGS]);
    memcpy(buf + slot * msg_len, msg, msg_len);
    head[USED_MSGS]++;
    return WQ_OK;
}

int32_t wq_msgq_get(uint32_t *head, const uint8_t *buf, uint64_t buf_len, uint8_t *out, uint64_t out_len)
{
    if (CHECKED && (msgq_malformed(head, buf_len) || out_len != head[MSG_SIZE]))
        return WQ_EINVAL;
    if (head[USED_MSGS] == 0)
        return WQ_ENOMSG;
    memcpy(out, buf + head[READ_IDX] * out_len, out_len);
    head[READ_IDX] = (uint32_t)wrapped((uint64_t)head[READ_IDX] + 1, head[MAX_MSGS]);
    head[USED_MSGS]--;
    return WQ_OK;
}

/* ---- Stack ------------------------------------------------------------------------------------ */

enum { CAPACITY, COUNT };

static inline bool stack_malformed(const uint32_t *head, uint64_t word_len)
{
    return head[CAPACITY] == 0 || head[COUNT] > head[CAPACITY] || word_len < head[CAPACITY];
}

int32_t wq_stack_init(uint32_t *head, const uint64_t *word, uint64_t word_len, uint32_t capacity)
{
    (void)word;
    if (CHECKED && (capacity == 0 || word_len < capacity))
        return WQ_EINVAL;
    head[CAPACITY] = capacity;
    head[COUNT] = 0;
    return WQ_OK;
}

int32_t wq_stack_push(uint32_t *head, uint64_t *word, uint64_t word_len, uint64_t data)
{
    if (CHECKED && stack_malformed(head, word_len))
        return WQ_EINVAL;
    if (head[COUNT] == head[CAPACITY])
        return WQ_ENOMEM;
    word[head[COUNT]++] = data;
    return WQ_OK;
}

int32_t wq_stack_pop(uint32_t *head, const uint64_t *word, uint64_t word_len, uint64_t *data)
{
    if (CHECKED && stack_malformed(head, word_len))
        return WQ_EINVAL;
    if (head[COUNT] == 0)
        return WQ_EBUSY;
    *data = word[--head[COUNT]];
    return WQ_OK;
}

/* ---- Memory slab ------------------------------------------------------------------------------ */

enum { NUM_BLOCKS, BLOCK_SIZE, NUM_USED, FIRST };

static inline bool slab_malformed(const uint32_t *head, const uint32_t *link, uint64_t link_len)
{
    return head[NUM_BLOCKS] == 0 || head[BLOCK_SIZE] == 0 || head[NUM_USED] > head[NUM_BLOCKS] ||
           head[FIRST] >= head[NUM_BLOCKS] || link_len < head[NUM_BLOCKS] ||
           (head[NUM_USED] < head[NUM_BLOCKS] && (link[head[FIRST]] == 0 || link[head[FIRST]] > head[NUM_BLOCKS]));
}

int32_t wq_mem_slab_init(uint32_t *head, uint32_t *link, uint64_t link_len, uint32_t block_size, uint32_t num_blocks)
{
    if (CHECKED && (block_size == 0 || num_blocks == 0 || link_len < num_blocks))
        return WQ_EINVAL;
    for (uint32_t i = 0; i + 1 < num_blocks; i++)
        link[i] = i + 2;
    link[num_blocks - 1] = 1;
    head[NUM_BLOCKS] = num_blocks;
    head[BLOCK_SIZE] = block_size;
    head[NUM_USED] = 0;
    head[FIRST] = 0;
    return WQ_OK;
}

int64_t wq_mem_slab_alloc(uint32_t *head, uint32_t *link, uint64_t link_len)
{
    if (CHECKED && slab_malformed(head, link, link_len))
        return WQ_EINVAL;
    if (head[NUM_USED] == head[NUM_BLOCKS])
        return WQ_ENOMEM;
    uint32_t block = head[FIRST];
    head[FIRST] = link[block] - 1;
    link[block] = 0;
    head[NUM_USED]++;
    return block;
}

int32_t wq_mem_slab_free(uint32_t *head, uint32_t *link, uint64_t link_len, uint32_t block)
{
    if (CHECKED && (slab_malformed(head, link, link_len) || block >= head[NUM_BLOCKS] || link[block] != 0 ||
                    head[NUM_USED] == 0))
        return WQ_EINVAL;
    link[block] = head[FIRST] + 1;
    head[FIRST] = block;
    head[NUM_USED]--;
    return WQ_OK;
}
