/* Times the library of this tree beside that of the commit REV; then BF16's routine of both by itself, beside plain C.
 *
 *   compare [ROUNDS [MICROSECONDS]] */
#include "plain.h"
#include "times.h"
#include "unpack.h"

#include <stdlib.h>

run_fn now_run, old_run;
unpack_fn now_unpack, old_unpack;

int main(int argc, char **argv)
{
    static const struct program programs[] = {{"now", now_run}, {REV, old_run}};
    static const struct unpacker unpackers[] = {{"now", now_unpack}, {REV, old_unpack}, {"plain", plain_unpack}};
    unsigned rounds = argc > 1 ? (unsigned)atoi(argv[1]) : 50, us = argc > 2 ? (unsigned)atoi(argv[2]) : 400;
    print_times(programs, 2, rounds, us);
    print_unpacking(unpackers, 3, rounds, us);
    return 0;
}
