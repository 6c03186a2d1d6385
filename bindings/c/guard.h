/* Buffers beside pages that may not be touched: an access past their end, or before their start, stops the program. */
#ifndef GUARD_H
#define GUARD_H

#include <stdbool.h>
#include <stddef.h>
#include <stdint.h>

/* Whole pages between two such pages. */
struct guarded {
    uint8_t *start;
    size_t bytes;
};

/* Makes room for so many bytes; false where the system has none. */
bool guard(struct guarded *guarded, size_t bytes);

/* So many bytes directly before the page behind the room, or else directly behind the page before it. Elements that have 8, 4 or 2 bytes
 * are aligned, also where there are none. */
void *lend(const struct guarded *guarded, size_t bytes, bool at_end);

#endif
