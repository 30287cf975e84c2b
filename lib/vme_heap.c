/* The allocator of libvme_machine over malloc. A program that defines the three functions itself is linked without this file. */
#include <stdlib.h>

#include "vme_alloc.h"

/* malloc aligns to 16, and no type of the library needs more. */
vme_block rattle_alloc(size_t size, size_t align)
{
    (void)align;
    return vme_block_at(malloc(size ? size : 1));
}

vme_block rattle_realloc(void *old, size_t kept, size_t size, size_t align)
{
    (void)kept;
    (void)align;
    return vme_block_at(realloc(old, size ? size : 1));
}

void rattle_dealloc(void *old)
{
    free(old);
}
