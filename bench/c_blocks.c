/* The slab of blocks.h. Any address is taken for a block that is out.
 *
 * SPDX-License-Identifier: Apache-2.0
 */
#include <string.h>
#include "blocks.h"
#include "waitqueue.h"

static inline char *next_of(const char *block)
{
    char *next;
    memcpy(&next, block, sizeof next);
    return next;
}

static inline void link_to(char *block, char *next)
{
    memcpy(block, &next, sizeof next);
}

int32_t blocks_slab_init(struct blocks_slab *s, char *buffer, size_t block_size, uint32_t num_blocks)
{
    *s = (struct blocks_slab){num_blocks, 0, block_size, buffer, NULL};
    for (uint32_t i = num_blocks; i > 0; i--) {
        char *block = buffer + (i - 1) * block_size;
        link_to(block, s->free_list);
        s->free_list = block;
    }
    return WQ_OK;
}

int32_t blocks_slab_alloc(struct blocks_slab *s, char **block)
{
    if (s->free_list == NULL)
        return WQ_ENOMEM;
    *block = s->free_list;
    s->free_list = next_of(*block);
    s->num_used++;
    return WQ_OK;
}

void blocks_slab_free(struct blocks_slab *s, char *block)
{
    link_to(block, s->free_list);
    s->free_list = block;
    s->num_used--;
}
