/* A slab as in Zephyr: the free blocks are a list, each with the address of the next in its first bytes.
 *
 * SPDX-License-Identifier: Apache-2.0
 */
#ifndef BLOCKS_H
#define BLOCKS_H

#include <stddef.h>
#include <stdint.h>

struct blocks_slab {
    uint32_t num_blocks, num_used;
    size_t block_size;
    char *buffer, *free_list;
};

int32_t blocks_slab_init(struct blocks_slab *s, char *buffer, size_t block_size, uint32_t num_blocks);
int32_t blocks_slab_alloc(struct blocks_slab *s, char **block); /* WQ_OK, WQ_ENOMEM */
void blocks_slab_free(struct blocks_slab *s, char *block);

#endif
