/* Times the exported calls beside plain C, in one run, on the same inputs: the parts in their order, the clock and the random numbers. */
#include "benchmark.h"
#include <stdlib.h>
#include <time.h>

volatile uint32_t sink;

int32_t from_seed(uint64_t *seed, int32_t low, int32_t high) {
    *seed ^= *seed << 13;
    *seed ^= *seed >> 7;
    *seed ^= *seed << 17;
    return low + (int32_t)((*seed >> 32) % (uint64_t)(high - low + 1));
}

int32_t from(int32_t low, int32_t high) {
    static uint64_t seed = 0x9e3779b97f4a7c15u;
    return from_seed(&seed, low, high);
}

double now(void) {
    struct timespec t;
    clock_gettime(CLOCK_MONOTONIC, &t);
    return 1e9 * (double)t.tv_sec + (double)t.tv_nsec;
}

void need(int alike, const char *name) {
    if (alike)
        return;
    printf("%s: the proved call and plain C differ, or a call that is to be accepted is refused\n", name);
    exit(1);
}

int main(void) {
    printf("%-15s %9s %12s %8s\n", "ns per call", "proved", "plain C", "ratio");
    benchmark_octagons();
    benchmark_folds();
    benchmark_outlines();
    benchmark_splits();
    benchmark_surveys();
    benchmark_spectra();
    benchmark_sheets();
    benchmark_joins();
    benchmark_listing();
    return 0;
}
