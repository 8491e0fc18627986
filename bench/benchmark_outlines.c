/* Times outlines beside plain C: the octagon of one, the outline of an octagon, and the place of one of its corners. */
#include "benchmark.h"
#include <string.h>

enum { INPUTS = 512, TURNS = 4000, ACROSS = 2000, FAR = 1900000 };

/* A start, and eight sides. */
typedef struct {
    int32_t start[2];
    uint32_t sides[8];
} outline;

static int32_t plots[INPUTS][8];
static outline outlines[INPUTS];

typedef uint32_t drawer(const int32_t *, size_t, const uint32_t *, size_t, int32_t *, size_t);
typedef uint32_t tracer(const int32_t *, size_t, int32_t *, size_t, uint32_t *, size_t);
typedef uint32_t placer(const int32_t *, size_t, uint32_t, double *, size_t);

/* Both calls have to trace and draw each plot alike, and to put each of its corners in one place. */
static void fill_outlines(void) {
    for (int i = 0; i < INPUTS; i++) {
        outline a, b;
        int32_t c[8], d[8];
        double e[2], f[2];
        draw_bounds(plots[i], ACROSS, FAR);
        int accepted = !kx_to_outline(plots[i], 8, a.start, 2, a.sides, 8) && !plain_to_outline(plots[i], 8, b.start, 2, b.sides, 8);
        need(accepted && !memcmp(&a, &b, sizeof a), "to_outline");
        accepted = !kx_to_octagon(a.start, 2, a.sides, 8, c, 8) && !plain_to_octagon(a.start, 2, a.sides, 8, d, 8);
        need(accepted && !memcmp(c, d, sizeof c), "to_octagon");
        for (uint32_t k = 0; k < 8; k++) {
            accepted = !kx_vertex_place(plots[i], 8, k, e, 2) && !plain_vertex_place(plots[i], 8, k, f, 2);
            need(accepted && !memcmp(e, f, sizeof e), "vertex_place");
        }
        outlines[i] = a;
    }
}

static double time_draw(drawer *f) {
    int32_t out[8] = {0};
    uint32_t sum = 0;
    double at = now();
    for (int i = 0; i < INPUTS; i++)
        sum += f(outlines[i].start, 2, outlines[i].sides, 8, out, 8) + (uint32_t)out[i % 8];
    sink = sum;
    return (now() - at) / INPUTS;
}

static double time_trace(tracer *f) {
    outline o = {{0}, {0}};
    uint32_t sum = 0;
    double at = now();
    for (int i = 0; i < INPUTS; i++)
        sum += f(plots[i], 8, o.start, 2, o.sides, 8) + o.sides[i % 8];
    sink = sum;
    return (now() - at) / INPUTS;
}

static double time_place(placer *f) {
    double place[2] = {0}, sum = 0;
    double at = now();
    for (int i = 0; i < INPUTS; i++)
        sum += f(plots[i], 8, (uint32_t)i % 8, place, 2) + place[i % 2];
    sink = (uint32_t)(int64_t)sum;
    return (now() - at) / INPUTS;
}

void benchmark_outlines(void) {
    fill_outlines();
    COMPARE("to_octagon", TURNS, time_draw, kx_to_octagon, plain_to_octagon);
    COMPARE("to_outline", TURNS, time_trace, kx_to_outline, plain_to_outline);
    COMPARE("vertex_place", TURNS, time_place, kx_vertex_place, plain_vertex_place);
}
