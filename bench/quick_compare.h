#ifndef QUICK_COMPARE_H
#define QUICK_COMPARE_H

#include <stddef.h>
#include <stdint.h>
#include "rows.h"

/* Two lines of so many frames: the fifteen sums and the list, as spritbobbin_compare_lines has them. */
void quick_compare(const struct row *row, const uint8_t *one, const uint8_t *other, size_t frames, uint64_t *sums, uint64_t *places);

#endif
