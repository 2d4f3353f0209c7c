/* Programs that run lists: compared, then timed in turn. */
#ifndef TIMES_H
#define TIMES_H

#include "lists.h"

#include "../include/replay.h"

#include <stddef.h>
#include <stdint.h>

/* The words of a run's outcome, the ties and the stores of the eight columns among them. As many as the library writes, or it would write past
 * the room. */
enum { OUTCOME = REPLAY_OUTCOME };

/* As replay_run. */
typedef uint32_t run_fn(const uint32_t settings[8], uint32_t *image, size_t image_len, uint16_t *dst, size_t dst_len,
                        const uint32_t *list, size_t list_len, uint32_t outcome[OUTCOME]);

struct program {
    const char *name;
    run_fn *run;
};

/* Times every list, in rounds of about `us` microseconds for each program, and prints a table in Markdown: ns an instruction of each program
 * and the first one's time over each other's, from a mixed image; then the first one's over the second's from a quiet one.
 * Where two programs do not agree, the process ends with a complaint: a fast wrong answer is not a time. Ops that one of them
 * does not know are left out, and lists that are too long for one, and what one of them does not count, ties or stores, is not compared
 * with it. */
void print_times(const struct program *programs, unsigned count, unsigned rounds, unsigned us);

double now_ns(void);

/* Something that is timed: `several` does it so many times, and says how many ns one takes. */
struct task {
    double (*several)(const struct task *task, unsigned times);
    const void *by;
    size_t count;               /* what is timed of it: instructions, steps or cells */
    const struct list *list;    /* NULL: of no list */
    enum image_kind kind;
};

/* The ns of one of the count by each task, round by round. They take turns, so that what else the machine does falls on all; within a round it
 * hardly changes. */
void take_turns(const struct task *tasks, unsigned count, unsigned rounds, unsigned us, double ns[count][rounds]);

/* The best of the rounds, and the middle one of the rounds' ratios. */
double best(unsigned rounds, const double ns[rounds]);
double ratio(unsigned rounds, const double ns[rounds], const double other[rounds]);

#endif
