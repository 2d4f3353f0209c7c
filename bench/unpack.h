/* LOAD's BF16 routine by itself: compared, then timed in turn. */
#ifndef UNPACK_H
#define UNPACK_H

#include <stddef.h>
#include <stdint.h>

/* The words of so many cells. */
typedef void unpack_fn(const uint16_t *cells, uint32_t *words, size_t count);

struct unpacker {
    const char *name;
    unpack_fn *unpack;
};

/* Times a Dst's cells, and so many that they stay in the first cache, and prints a table in Markdown: ns a cell by each unpacker, and the
 * first one's time over each other's. Where two do not agree on each of the 65,536 cells, the process ends with a complaint. */
void print_unpacking(const struct unpacker *unpackers, unsigned count, unsigned rounds, unsigned us);

#endif
