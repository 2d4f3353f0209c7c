/* Listings read and written: compared, then timed in turn. */
#ifndef LISTINGS_H
#define LISTINGS_H

#include <stddef.h>
#include <stdint.h>

/* As replay_read and replay_write. */
typedef uint32_t read_fn(const uint8_t *text, size_t text_len, uint32_t *list, size_t list_len, uint32_t settings[8], uint32_t outcome[5]);
typedef uint32_t write_fn(const uint32_t settings[8], const uint32_t *list, size_t list_len, uint8_t *text, size_t text_len, uint32_t outcome[5]);

/* stdio_listing.c: by sscanf and by snprintf. */
read_fn stdio_read;
write_fn stdio_write;

/* A list whose fields are good as a listing of format 2, or 1, the old one; and its bytes. */
size_t print_listing(unsigned format, const uint32_t settings[8], const uint32_t *list, size_t count, uint8_t *text);

/* Each must read and write what the independent program does, on so many random listings, whole and damaged, and on short ones of both formats
 * with each byte changed: else the process ends with a complaint. */
void compare_listings(unsigned count);

/* Times reading and writing of short and of long listings, and prints two tables in Markdown. */
void print_listings(unsigned rounds, unsigned us);

#endif
