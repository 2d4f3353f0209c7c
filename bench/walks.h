/* Walks over lists, forwards and backwards: compared, then timed in turn, beside a run. */
#ifndef WALKS_H
#define WALKS_H

/* Each walk must do what the independent program's does, call by call, on so many random walks: else the process ends with a complaint. */
void compare_walks(unsigned count);

/* Times walks over the lists that are not narrow, and prints a table in Markdown. */
void print_walks(unsigned rounds, unsigned us);

#endif
