/* Times the n-fold spread and trim beside plain C, on plots that have room for so many folds of an element about (0, 0). */
#include "benchmark.h"
#include <stdlib.h>
#include <string.h>

enum { INPUTS = 512, TURNS = 4000, OTHERS = 65536 };

/* How far an element reaches from (0, 0), all its folds, and a plot beyond these; and how far a plot is moved. */
enum { REACH = 20, FOLDED_REACH = 800000, ROOM = 200, MOVE = 1000000 };

/* No mark: what a refused spread has to leave. */
enum { UNMARKED = 2 };

/* A plot, an element, and how often the one is spread or trimmed by the other. */
typedef struct {
    int32_t plot[8], element[8];
    uint32_t n;
} fold;

/* What a call gave: its number, bounds and mark. */
typedef struct {
    uint32_t number;
    int32_t bounds[8];
    uint32_t mark;
} given;

/* How many spreads and trims were accepted, and how many spreads were filled. */
typedef struct {
    int spreads, filled, trims;
} tally;

typedef uint32_t spreader(const int32_t *, size_t, const int32_t *, size_t, uint32_t, int32_t *, size_t, uint32_t *);
typedef uint32_t trimmer(const int32_t *, size_t, const int32_t *, size_t, uint32_t, int32_t *, size_t);

static fold folds[INPUTS];

/* The folds have a seed of their own, so that they alter no other input. */
static int32_t drawn(int32_t low, int32_t high) {
    static uint64_t seed = 0xd1b54a32d192ed03u;
    return from_seed(&seed, low, high);
}

/* Bounds with the cell (0, 0), that reach at most so far from it; some of them are slack. */
static void draw_about(int32_t c[8], int32_t reach) {
    for (int k = 0; k < 8; k++)
        c[k] = drawn(0, k % 2 ? 2 * reach : reach);
}

/* Moves bounds by up to so many cells along each axis. */
static void move(int32_t c[8], int32_t most) {
    int32_t x = drawn(-most, most), y = drawn(-most, most);
    const int32_t by[8] = {-y, x - y, x, x + y, y, y - x, -x, -x - y};
    for (int k = 0; k < 8; k++)
        c[k] += by[k];
}

/* Leaves of the cells of each operand those on a diagonal through (0, 0), a rising one for the one and a falling one for the other. */
static void oppose(fold *f) {
    int k = drawn(0, 1) ? 1 : 3;
    f->plot[k] = f->plot[k + 4] = 0;
    f->element[4 - k] = f->element[8 - k] = 0;
}

/* A plot with room for n folds of the element, but where the two are opposed. At one time in eight n is 0 or 1. */
static fold draw_fold(void) {
    fold f;
    int32_t reach = drawn(1, REACH), n = drawn(0, 7) ? drawn(0, FOLDED_REACH / reach) : drawn(0, 1);
    draw_about(f.element, reach);
    draw_about(f.plot, ROOM);
    for (int k = 0; k < 8; k++)
        f.plot[k] += n * f.element[k];
    if (!drawn(0, 15))
        oppose(&f);
    move(f.plot, MOVE);
    f.n = (uint32_t)n;
    return f;
}

/* At one time in sixteen takes LIMIT off one bound of an operand, so that mostly it has no cell. */
static void spoil(int32_t c[8]) {
    if (!drawn(0, 15))
        c[drawn(0, 7)] -= LIMIT;
}

/* Operands anywhere on the map or partly off it, large, small, of one cell or of none, and any number of folds up to one past the limit. */
static fold draw_other(void) {
    fold f;
    draw_about(f.plot, drawn(0, 1) ? drawn(0, LIMIT) : ROOM);
    draw_about(f.element, drawn(0, 1) ? drawn(0, LIMIT) : drawn(0, 1));
    if (!drawn(0, 7))
        oppose(&f);
    move(f.plot, LIMIT / 2);
    move(f.element, drawn(0, 1) ? LIMIT : 1);
    spoil(f.plot);
    spoil(f.element);
    f.n = (uint32_t)(drawn(0, 1) ? drawn(0, 3) : drawn(0, 7) ? drawn(0, FOLD_LIMIT) : FOLD_LIMIT + drawn(0, 1));
    return f;
}

static given spread(spreader *call, const fold *f) {
    given g = {0, {0}, UNMARKED};
    g.number = call(f->plot, 8, f->element, 8, f->n, g.bounds, 8, &g.mark);
    return g;
}

static given trim(trimmer *call, const fold *f) {
    given g = {0, {0}, UNMARKED};
    g.number = call(f->plot, 8, f->element, 8, f->n, g.bounds, 8);
    return g;
}

/* What the proved call gave, and plain C has to have given too. */
static given agreed(given proved, given plain, const char *name, uint32_t n) {
    if (memcmp(&proved, &plain, sizeof proved)) {
        printf("%s, n = %u: the proved call and plain C differ\n", name, n);
        exit(1);
    }
    return proved;
}

static void answer_alike(const fold *f, tally *t) {
    given a = agreed(spread(kx_dilate_n, f), spread(plain_dilate_n, f), "dilate_n", f->n);
    given b = agreed(trim(kx_erode_n, f), trim(plain_erode_n, f), "erode_n", f->n);
    t->spreads += !a.number;
    t->filled += a.mark == FILLED;
    t->trims += !b.number;
}

/* Most of the calls that are timed have to be accepted, and some spreads filled. */
static void fill_folds(void) {
    tally t = {0, 0, 0};
    for (int i = 0; i < INPUTS; i++) {
        folds[i] = draw_fold();
        answer_alike(&folds[i], &t);
    }
    if (4 * t.spreads < 3 * INPUTS || 4 * t.trims < 3 * INPUTS || !t.filled) {
        printf("of %d folds too few are accepted: %d spreads, %d of them filled, and %d trims\n", INPUTS, t.spreads, t.filled, t.trims);
        exit(1);
    }
}

/* Folds that are not timed, of which many are refused. */
static void try_others(void) {
    tally t = {0, 0, 0};
    for (int i = 0; i < OTHERS; i++) {
        fold f = draw_other();
        answer_alike(&f, &t);
    }
}

static double time_spread(spreader *call) {
    int32_t out[8] = {0};
    uint32_t sum = 0, mark = 0;
    double at = now();
    for (int i = 0; i < INPUTS; i++)
        sum += call(folds[i].plot, 8, folds[i].element, 8, folds[i].n, out, 8, &mark) + (uint32_t)out[i % 8] + mark;
    sink = sum;
    return (now() - at) / INPUTS;
}

static double time_trim(trimmer *call) {
    int32_t out[8] = {0};
    uint32_t sum = 0;
    double at = now();
    for (int i = 0; i < INPUTS; i++)
        sum += call(folds[i].plot, 8, folds[i].element, 8, folds[i].n, out, 8) + (uint32_t)out[i % 8];
    sink = sum;
    return (now() - at) / INPUTS;
}

void benchmark_folds(void) {
    fill_folds();
    try_others();
    COMPARE("dilate_n", TURNS, time_spread, kx_dilate_n, plain_dilate_n);
    COMPARE("erode_n", TURNS, time_trim, kx_erode_n, plain_erode_n);
}
