#include "bench.h"
#include "measure.h"

/* The library beside the second program, on equal inputs, in one run and one table. */
int main(void)
{
    print_head();
    return bench_texts() && bench_derive() && bench_calls() && bench_play() ? 0 : 1;
}
