/* A board's memory as a simulator's author writes it by hand, with the checks of libvme: bounds, byte locations, width and
 * switches of the board, and data of blocks. */
#include <string.h>
#include "library_by_hand.h"

/* Whether the board has the cycle of n bytes at an offset, single or in a block. */
static int has_cycle(const vme_class *board, uint8_t block, uint32_t at, uint8_t n)
{
    uint32_t place = at % 4;
    int whole = n == 1 || (n == 2 && place % 2 == 0) || (n == 4 && place == 0);
    if (block && n == 8)
        return board->width >= 32 && board->blt && place == 0;
    if (block && !(whole && board->blt))
        return 0;
    if (n == 1)
        return 1;
    if (n == 2 && place % 2 == 0)
        return board->width >= 16;
    if (n == 4 && place == 0)
        return board->width >= 32;
    return board->width >= 32 && board->uat && ((n == 2 && place == 1) || (n == 3 && place <= 1));
}

uint8_t by_hand_read(const uint8_t *bytes, size_t size, const vme_class *board, uint8_t block, uint32_t at, uint8_t n,
                     vme_datum *out)
{
    if (at > size || n > size - at || !has_cycle(board, block, at, n))
        return VME_BERR;
    out->n = n;
    memcpy(out->bytes, bytes + at, n);
    return VME_OK;
}

uint8_t by_hand_write(uint8_t *bytes, size_t size, const vme_class *board, uint8_t block, uint32_t at, const vme_datum *datum)
{
    uint8_t n = datum->n < 8 ? datum->n : 8;
    if (at > size || n > size - at || !has_cycle(board, block, at, n))
        return VME_BERR;
    memcpy(bytes + at, datum->bytes, n);
    return VME_OK;
}
