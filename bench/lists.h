/* The lists and images that are timed, the same on every machine. */
#ifndef LISTS_H
#define LISTS_H

#include <stdbool.h>
#include <stddef.h>
#include <stdint.h>

enum { LIST_IMAGE = 768, LIST_DST = 16384 };

/* The instructions of a list that says nothing else, and of the longest one. */
enum { LIST_COUNT = 1024, LIST_MOST = 16384 };

/* In a quiet image every lane is enabled and LaneConfig is 0; in a mixed one flags and the meaning bits of LaneConfig differ by lane. */
enum image_kind { QUIET, MIXED, IMAGE_KINDS };

struct list {
    const char *name;
    bool narrow;                                        /* not of all that its op allows, or not of all ops */
    size_t count;                                       /* instructions; 0: an op past `last` */
    uint32_t words[6 * LIST_MOST];                      /* six an instruction */
    uint32_t image[IMAGE_KINDS][LIST_IMAGE];
};

extern const uint32_t list_settings[8];
extern uint16_t list_dst[LIST_DST];

/* Makes the k-th list, and its images; NULL past the last list. The ops are those up to `last`, so that mixes can be made for programs that
 * know no more. What it hands out stands until the next call. */
const struct list *make_list(unsigned k, uint32_t last);

#endif
