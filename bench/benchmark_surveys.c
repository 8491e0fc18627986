/* Times the octagon of a tape and the clearance of a tree beside plain C. */
#include "benchmark.h"
#include <string.h>

enum { TREES = 512, POINTS = 1000, TURNS = 4000 };

/* A tree: its centre cell, and its radius. */
typedef struct {
    int32_t x, y;
    uint32_t radius;
} tree;

static double tape[2 * POINTS];
static tree trees[TREES];

typedef uint32_t encloser(const double *, size_t, int32_t *, size_t);
typedef uint32_t clearer(int32_t, int32_t, uint32_t, int32_t *, size_t);

/* Points of the map, with many bits of fraction. Both calls have to give the same octagon. */
static void fill_tape(void) {
    int32_t a[8], b[8];
    for (int i = 0; i < 2 * POINTS; i++)
        tape[i] = from(-1000000000, 1000000000) * 5e-4;
    need(!kx_enclose(tape, 2 * POINTS, a, 8) && !plain_enclose(tape, 2 * POINTS, b, 8) && !memcmp(a, b, sizeof a), "enclose");
}

/* Trees of any radius up to the limit, anywhere on the map. Both calls have to accept each, with the same bounds. */
static void fill_trees(void) {
    for (int i = 0; i < TREES; i++) {
        int32_t radius = from(0, RADIUS_LIMIT), room = LIMIT - radius, x = from(-room, room), y = from(-room, room), a[8], b[8];
        tree t = {x, y, (uint32_t)radius};
        need(!kx_clearance(t.x, t.y, t.radius, a, 8) && !plain_clearance(t.x, t.y, t.radius, b, 8) && !memcmp(a, b, sizeof a), "clearance");
        trees[i] = t;
    }
}

static double time_enclose(encloser *f) {
    int32_t out[8] = {0};
    double at = now();
    sink = f(tape, 2 * POINTS, out, 8) + (uint32_t)out[0];
    return now() - at;
}

static double time_clearance(clearer *f) {
    int32_t out[8] = {0};
    uint32_t sum = 0;
    double at = now();
    for (int i = 0; i < TREES; i++)
        sum += f(trees[i].x, trees[i].y, trees[i].radius, out, 8) + (uint32_t)out[i % 8];
    sink = sum;
    return (now() - at) / TREES;
}

void benchmark_surveys(void) {
    fill_tape();
    fill_trees();
    COMPARE("enclose", TURNS, time_enclose, kx_enclose, plain_enclose);
    COMPARE("clearance", TURNS, time_clearance, kx_clearance, plain_clearance);
}
