/* Times the spectrum beside plain C: a plot as wide as the old map, opened by a block of 3 by 3 cells, in nanoseconds an entry. */
#include "benchmark.h"
#include <stdlib.h>
#include <string.h>

/* The entries of the whole map, the most that the block gives; and those of the plot that is timed, few enough that a turn is short. */
enum { ENTRIES = LIMIT + 1, TIMED = OLD_LIMIT + 1, TURNS = 400 };

typedef uint32_t breaker(const int32_t *, size_t, const int32_t *, size_t, uint64_t *, size_t, size_t *, uint32_t *);

/* The old map; the whole map; one with its corners cut, which loses cells at each fold; and the block, with (0, 0) in its middle. */
static const int32_t old[8] = {OLD_LIMIT, 2 * OLD_LIMIT, OLD_LIMIT, 2 * OLD_LIMIT, OLD_LIMIT, 2 * OLD_LIMIT, OLD_LIMIT, 2 * OLD_LIMIT};
static const int32_t whole[8] = {LIMIT, 2 * LIMIT, LIMIT, 2 * LIMIT, LIMIT, 2 * LIMIT, LIMIT, 2 * LIMIT};
static const int32_t cut[8] = {LIMIT, LIMIT + 600000, LIMIT, LIMIT + 700000, LIMIT, LIMIT + 800000, LIMIT, LIMIT + 900000};
static const int32_t block[8] = {1, 2, 1, 2, 1, 2, 1, 2};

/* How many entries a plot has, which are all written. */
static inline size_t break_up(breaker *f, const int32_t plot[8], uint64_t list[ENTRIES]) {
    size_t trims = 0;
    uint32_t ending = SPENT;
    if (f(plot, 8, block, 8, list, ENTRIES, &trims, &ending) || ending != FINISHED)
        exit(1);
    return trims;
}

/* Both calls have to list the same entries. */
static void break_alike(const int32_t plot[8]) {
    static uint64_t proved[ENTRIES], plain[ENTRIES];
    size_t n = break_up(kx_spectrum, plot, proved);
    if (break_up(plain_spectrum, plot, plain) != n || memcmp(proved, plain, sizeof proved)) {
        printf("the proved spectrum and plain C's differ\n");
        exit(1);
    }
}

static double time_entry(breaker *f) {
    static uint64_t list[ENTRIES];
    double at = now();
    size_t n = break_up(f, old, list);
    double ns = now() - at;
    need(n == TIMED, "spectrum");
    sink = (uint32_t)list[n - 1];
    return ns / TIMED;
}

void benchmark_spectra(void) {
    break_alike(cut);
    break_alike(whole);
    break_alike(old);
    COMPARE("spectrum, entry", TURNS, time_entry, kx_spectrum, plain_spectrum);
}
