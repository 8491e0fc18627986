/* Times the calls on one octagon or two beside plain C: on small plots anywhere on the map, and small elements. */
#include "benchmark.h"
#include <string.h>

enum { INPUTS = 512, TURNS = 4000 };

/* How many cells a plot and an element have across, and how far from (0, 0) they stand: so far that a spread stays on the map. */
enum { ACROSS = 2000, FAR = 1900000, SMALL = 40, NEAR = 3000 };

static int32_t plots[INPUTS][8], elements[INPUTS][8];

/* What a call gave: its number, bounds and mark. */
typedef struct {
    uint32_t number;
    int32_t bounds[8];
    uint32_t mark;
} given;

typedef uint32_t of_one(const int32_t *, size_t, int32_t *, size_t);
typedef uint32_t trimmer(const int32_t *, size_t, const int32_t *, size_t, int32_t *, size_t);
typedef uint32_t spreader(const int32_t *, size_t, const int32_t *, size_t, int32_t *, size_t, uint32_t *);
typedef uint32_t counter(const int32_t *, size_t, uint64_t *);

void draw_bounds(int32_t c[8], int32_t size, int32_t far) {
    int32_t width = from(0, size), height = from(0, size), cut = (width < height ? width : height) / 2, x = from(-far, far), y = from(-far, far);
    c[0] = -y;
    c[1] = x + width - y - from(0, cut);
    c[2] = x + width;
    c[3] = x + width + y + height - from(0, cut);
    c[4] = y + height;
    c[5] = y + height - x - from(0, cut);
    c[6] = -x;
    c[7] = -x - y - from(0, cut);
    c[from(0, 7)] += from(0, 5);
}

/* ---- both calls answer alike */

static void one_alike(of_one *proved, of_one *plain, const int32_t c[8], const char *name) {
    given a = {0}, b = {0};
    a.number = proved(c, 8, a.bounds, 8);
    b.number = plain(c, 8, b.bounds, 8);
    need(!a.number && !memcmp(&a, &b, sizeof a), name);
}

static void count_alike(const int32_t c[8]) {
    uint64_t a = 0, b = 1;
    need(!kx_count(c, 8, &a) && !plain_count(c, 8, &b) && a == b, "count");
}

/* A trim may be refused, and so may an opening; whether it is accepted. */
static int trim_alike(const int32_t p[8], const int32_t f[8]) {
    given a = {0}, b = {0};
    a.number = kx_erode(p, 8, f, 8, a.bounds, 8);
    b.number = plain_erode(p, 8, f, 8, b.bounds, 8);
    need(!memcmp(&a, &b, sizeof a), "erode");
    return !a.number;
}

static int spread_alike(spreader *proved, spreader *plain, const int32_t p[8], const int32_t f[8], const char *name) {
    given a = {0}, b = {0};
    a.number = proved(p, 8, f, 8, a.bounds, 8, &a.mark);
    b.number = plain(p, 8, f, 8, b.bounds, 8, &b.mark);
    need(!memcmp(&a, &b, sizeof a), name);
    return !a.number;
}

/* Most calls have to be accepted. */
static void fill_inputs(void) {
    int accepted[4] = {0};
    for (int i = 0; i < INPUTS; i++) {
        int32_t *p = plots[i], *f = elements[i];
        draw_bounds(p, ACROSS, FAR);
        draw_bounds(f, SMALL, NEAR);
        one_alike(kx_normalise, plain_normalise, p, "normalise");
        count_alike(p);
        accepted[0] += spread_alike(kx_dilate, plain_dilate, p, f, "dilate");
        accepted[1] += trim_alike(p, f);
        accepted[2] += spread_alike(kx_opening, plain_opening, p, f, "opening");
        accepted[3] += spread_alike(kx_closing, plain_closing, p, f, "closing");
    }
    for (int k = 0; k < 4; k++)
        need(4 * accepted[k] > 3 * INPUTS, "the calls on two octagons");
}

/* ---- their times */

static double time_one(of_one *f) {
    int32_t out[8] = {0};
    uint32_t sum = 0;
    double at = now();
    for (int i = 0; i < INPUTS; i++)
        sum += f(plots[i], 8, out, 8) + (uint32_t)out[i % 8];
    sink = sum;
    return (now() - at) / INPUTS;
}

static double time_count(counter *f) {
    uint32_t sum = 0;
    uint64_t cells = 0;
    double at = now();
    for (int i = 0; i < INPUTS; i++)
        sum += f(plots[i], 8, &cells) + (uint32_t)cells;
    sink = sum;
    return (now() - at) / INPUTS;
}

static double time_trim(trimmer *f) {
    int32_t out[8] = {0};
    uint32_t sum = 0;
    double at = now();
    for (int i = 0; i < INPUTS; i++)
        sum += f(plots[i], 8, elements[i], 8, out, 8) + (uint32_t)out[i % 8];
    sink = sum;
    return (now() - at) / INPUTS;
}

static double time_spread(spreader *f) {
    int32_t out[8] = {0};
    uint32_t sum = 0, mark = 0;
    double at = now();
    for (int i = 0; i < INPUTS; i++)
        sum += f(plots[i], 8, elements[i], 8, out, 8, &mark) + (uint32_t)out[i % 8] + mark;
    sink = sum;
    return (now() - at) / INPUTS;
}

void benchmark_octagons(void) {
    fill_inputs();
    COMPARE("normalise", TURNS, time_one, kx_normalise, plain_normalise);
    COMPARE("count", TURNS, time_count, kx_count, plain_count);
    COMPARE("dilate", TURNS, time_spread, kx_dilate, plain_dilate);
    COMPARE("erode", TURNS, time_trim, kx_erode, plain_erode);
    COMPARE("opening", TURNS, time_spread, kx_opening, plain_opening);
    COMPARE("closing", TURNS, time_spread, kx_closing, plain_closing);
}
