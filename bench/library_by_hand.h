#ifndef LIBRARY_BY_HAND_H
#define LIBRARY_BY_HAND_H

#include "vme.h"

/* What vme_slave_read and vme_slave_write do, written by hand. */
uint8_t by_hand_read(const uint8_t *bytes, size_t size, const vme_class *board, uint8_t block, uint32_t at, uint8_t n,
                     vme_datum *out);
uint8_t by_hand_write(uint8_t *bytes, size_t size, const vme_class *board, uint8_t block, uint32_t at, const vme_datum *datum);

#endif
