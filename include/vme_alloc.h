/* vme_alloc.h: the allocator of libvme_machine, for programs that choose the memory of a machine.
 *
 * A program that defines the three functions is linked without those of the library, which are over malloc. They are one
 * allocator; each address that it gives is a multiple of 16, whatever align says. */
#ifndef VME_ALLOC_H
#define VME_ALLOC_H

#include <stdbool.h>
#include <stddef.h>

#ifdef __cplusplus
extern "C" {
#endif

/* An allocation. */
typedef struct vme_block {
    bool ok;
    void *at; /* not null, not even if ok is false */
} vme_block;

/* The block at an address, or a refused one for a null pointer. */
static inline vme_block vme_block_at(void *at)
{
    static char none;
    vme_block block;
    block.ok = at != NULL;
    block.at = at ? at : &none;
    return block;
}

/* Allocates size bytes, which may be 0. */
vme_block rattle_alloc(size_t size, size_t align);

/* Moves a block, whose first kept bytes are kept, into one of size bytes. A refused one leaves the old one. */
vme_block rattle_realloc(void *old, size_t kept, size_t size, size_t align);

/* Frees a block. */
void rattle_dealloc(void *old);

#ifdef __cplusplus
}
#endif

#endif
