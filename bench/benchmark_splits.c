/* Times the split beside plain C: of a few plots again and again, and of more than a processor's branch prediction can learn. */
#include "benchmark.h"
#include <string.h>

enum { FEW = 512, MANY = 65536, TURNS = 4000, ACROSS = 2000, FAR = 1900000 };

static int32_t plots[MANY][8];

typedef uint32_t splitter(const int32_t *, size_t, int32_t *, size_t, uint32_t *, size_t);

/* Both calls have to split each plot alike. */
static void fill_plots(void) {
    for (int i = 0; i < MANY; i++) {
        int32_t a[2], b[2];
        uint32_t k[13], l[13];
        draw_bounds(plots[i], ACROSS, FAR);
        int accepted = !kx_decompose(plots[i], 8, a, 2, k, 13) && !plain_decompose(plots[i], 8, b, 2, l, 13);
        need(accepted && !memcmp(a, b, sizeof a) && !memcmp(k, l, sizeof k), "split");
    }
}

/* Set in line, so that each loop is compiled with its own number of inputs. */
__attribute__((always_inline)) static inline double time_splits(splitter *f, int inputs) {
    int32_t start[2] = {0};
    uint32_t counts[13] = {0}, sum = 0;
    double at = now();
    for (int i = 0; i < inputs; i++)
        sum += f(plots[i], 8, start, 2, counts, 13) + counts[i % 13];
    sink = sum;
    return (now() - at) / inputs;
}

static double time_few(splitter *f) { return time_splits(f, FEW); }

static double time_many(splitter *f) { return time_splits(f, MANY); }

void benchmark_splits(void) {
    fill_plots();
    COMPARE("split", TURNS, time_few, kx_decompose, plain_decompose);
    COMPARE("split, many", TURNS * FEW / MANY, time_many, kx_decompose, plain_decompose);
}
