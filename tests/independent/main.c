/* The commands. */
#include "independent.h"

#include <errno.h>
#include <inttypes.h>
#include <stdlib.h>
#include <string.h>

static int usage(void)
{
    fprintf(stderr, "usage: independent cases SEED RUNS LANES LISTINGS WALKS     makes cases, on standard output\n"
                    "       independent answers                                  cases on standard input, a line for each\n"
                    "       independent show LINE                                the case that the line is of\n"
                    "       independent coverage                                 what the cases meet\n"
                    "       independent replay                                   a listing on standard input, the report on standard output\n"
                    "       independent rewrite                                  a listing on standard input, the same in format 2, or the report of its refusal\n"
                    "       independent selftest                                 document 01's examples, and what document 02 changes\n");
    return 2;
}

static bool number(const char *text, uint32_t *value)
{
    char *end;
    errno = 0;
    unsigned long long v = strtoull(text, &end, 10);
    if (*text < '0' || *text > '9' || *end != 0 || errno != 0 || v > UINT32_MAX) return false;
    *value = (uint32_t)v;
    return true;
}

int main(int argc, char **argv)
{
    const char *command = argc > 1 ? argv[1] : "";
    uint32_t n[5];

    for (int i = 2; i < argc; i++)
        if (i > 6 || !number(argv[i], &n[i - 2])) return usage();
    if (strcmp(command, "cases") == 0 && argc == 7) ind_cases(n[0], n[1], n[2], n[3], n[4], stdout);
    else if (strcmp(command, "answers") == 0 && argc == 2) ind_answers(stdin, stdout);
    else if (strcmp(command, "show") == 0 && argc == 3) return ind_show(stdin, n[0], stdout) ? 0 : 1;
    else if (strcmp(command, "coverage") == 0 && argc == 2) ind_coverage(stdin, stdout);
    else if (strcmp(command, "replay") == 0 && argc == 2) ind_replay(stdin, stdout);
    else if (strcmp(command, "rewrite") == 0 && argc == 2) ind_rewrite(stdin, stdout);
    else if (strcmp(command, "selftest") == 0 && argc == 2) return ind_selftest();
    else return usage();
    return fflush(stdout) == 0 ? 0 : 1;
}
