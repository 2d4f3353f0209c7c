/* The run of document 01, and of the requests of document 02 that are in, in plain C, as fast as C by rows goes: what the proved run is
 * timed against; a walk over a list; and listings, read and written. Same interfaces as replay_run, replay_begin, replay_forward,
 * replay_back, replay_read and replay_write. And what a LOAD in BF16 makes of each of `count` cells. */
#ifndef PLAIN_H
#define PLAIN_H

#include <stddef.h>
#include <stdint.h>

uint32_t plain_run(const uint32_t settings[8], uint32_t *image, size_t image_len, uint16_t *dst, size_t dst_len,
                   const uint32_t *list, size_t list_len, uint32_t outcome[20]);
uint32_t plain_begin(const uint32_t settings[8], const uint32_t *image, size_t image_len, const uint16_t *dst, size_t dst_len,
                     const uint32_t *list, size_t list_len, uint32_t outcome[4], uint32_t walk[2]);
uint32_t plain_forward(const uint32_t settings[8], uint32_t *image, size_t image_len, uint16_t *dst, size_t dst_len,
                       const uint32_t *list, size_t list_len, uint32_t *store, size_t store_len, uint32_t walk[2]);
uint32_t plain_back(const uint32_t settings[8], uint32_t *image, size_t image_len, uint16_t *dst, size_t dst_len,
                    const uint32_t *list, size_t list_len, uint32_t *store, size_t store_len, uint32_t walk[2]);
uint32_t plain_read(const uint8_t *text, size_t text_len, uint32_t *list, size_t list_len, uint32_t settings[8], uint32_t outcome[5]);
uint32_t plain_write(const uint32_t settings[8], const uint32_t *list, size_t list_len, uint8_t *text, size_t text_len, uint32_t outcome[5]);
void plain_unpack(const uint16_t *cells, uint32_t *words, size_t count);

#endif
