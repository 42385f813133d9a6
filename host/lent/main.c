#include "../shared/options.h"
#include "compare.h"
#include "runs.h"

#include <stdio.h>

int main(int argc, char **argv)
{
    uint64_t seed = 1;
    unsigned long count = 50000;
    int status = 0;

    read_options("lent_host", argc, argv, &seed, &count);
    compare_start();
    run_known();
    run_odd();
    run_ranges();
    run_edges(&seed, count / 5);
    run_generated(&seed, count);
    run_wild(&seed, count / 4);
    run_threads(&seed, 2 * count);
    for (int number = 0; number < REFUSAL_NUMBERS; number++) {
        printf("refusal %d: %lu\n", number, seen[number]);
        if (seen[number] == 0)
            status = 1;
    }
    printf("host: %lu calls compared, 0 differences\n", calls_compared);
    return status;
}
